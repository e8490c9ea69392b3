// Package disk says how much room a file system has.
package disk

import (
	"os"
	"syscall"
)

// Free returns how many bytes are free to this user on the file system of a folder.
func Free(folder string) (int64, error) {
	var disk syscall.Statfs_t
	if err := syscall.Statfs(folder, &disk); err != nil {
		return 0, &os.PathError{Op: "statfs", Path: folder, Err: err}
	}
	return int64(disk.Bavail) * blockSize(&disk), nil
}
