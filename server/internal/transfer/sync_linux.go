package transfer

import "golang.org/x/sys/unix"

// syncsEach says that each file and each folder is synced by itself.
const syncsEach = false

// sync waits until the file system of the folder has on the disk what was written to it.
func (f *folder) sync() error {
	return f.failed("sync", ".", unix.Syncfs(f.fd()))
}
