//go:build !linux

package transfer

// syncsEach says that each file and each folder is synced by itself: no call waits for a whole file system.
const syncsEach = true

// sync waits until the folder has on the disk which members it has.
func (f *folder) sync() error { return f.file.Sync() }
