//go:build !linux

package disk

import "syscall"

// blockSize returns how many bytes a block has of those that a file system counts.
func blockSize(disk *syscall.Statfs_t) int64 {
	return int64(disk.Bsize)
}
