package main

import (
	"errors"
	"io/fs"
	"os"
	"os/user"
	"path/filepath"
	"strconv"
	"syscall"

	"golang.org/x/sys/unix"
)

// serviceGroup is the group of the service, whose files it can read.
const serviceGroup = "davserve"

// same is an owner or a group that stays.
const same = -1

// An access is who may read and write a file.
type access struct {
	mode  fs.FileMode
	owner int
	group int
}

// groupOfService returns the number of the group of the service. It is `same` if there is no such group, or if this user
// may not give files to it.
func groupOfService() int {
	if os.Geteuid() != 0 {
		return same
	}
	found, err := user.LookupGroup(serviceGroup)
	if err != nil {
		return same
	}
	number, err := strconv.Atoi(found.Gid)
	if err != nil {
		return same
	}
	return number
}

// accessOf returns the access of a file, or one without an owner and a group if it does not exist.
func accessOf(path string, absent fs.FileMode) access {
	info, err := os.Stat(path)
	if err != nil {
		return access{absent, same, same}
	}
	if status, ok := info.Sys().(*syscall.Stat_t); ok {
		return access{info.Mode().Perm(), int(status.Uid), int(status.Gid)}
	}
	return access{info.Mode().Perm(), same, same}
}

// replaceFile has a file contain this, or leaves it as it was. When it returns without an error the file is on the disk.
func replaceFile(path string, content []byte, a access) (err error) {
	if real, err := filepath.EvalSymlinks(path); err == nil {
		path = real
	}
	file, err := os.CreateTemp(filepath.Dir(path), "."+filepath.Base(path)+"-*")
	if err != nil {
		return err
	}
	defer func() {
		file.Close()
		if err != nil {
			os.Remove(file.Name())
		}
	}()
	if _, err := file.Write(content); err != nil {
		return err
	}
	if err := a.give(file); err != nil {
		return err
	}
	if err := file.Sync(); err != nil {
		return err
	}
	if err := os.Rename(file.Name(), path); err != nil {
		return err
	}
	return syncFolder(filepath.Dir(path))
}

// give sets the access of a new file.
func (a access) give(file *os.File) error {
	if a.owner != same || a.group != same {
		if err := file.Chown(a.owner, a.group); err != nil && os.Geteuid() == 0 {
			return err
		}
	}
	return file.Chmod(a.mode)
}

// syncFolder waits until the names in a folder are on the disk.
func syncFolder(path string) error {
	folder, err := os.Open(path)
	if err != nil {
		return err
	}
	defer folder.Close()
	return folder.Sync()
}

// makeFolder makes a folder that everyone may enter, if there is none.
func makeFolder(path string) error {
	if info, err := os.Stat(path); err == nil {
		if !info.IsDir() {
			return &os.PathError{Op: "mkdir", Path: path, Err: syscall.ENOTDIR}
		}
		return nil
	}
	if err := os.Mkdir(path, 0o755); err != nil {
		return err
	}
	if err := os.Chmod(path, 0o755); err != nil { // A umask may have said otherwise.
		return err
	}
	return syncFolder(filepath.Dir(path))
}

// checkWritable returns an error if this user cannot make files in a folder.
func checkWritable(folder string) error {
	if err := unix.Access(folder, unix.W_OK|unix.X_OK); err != nil {
		return &os.PathError{Op: "write in", Path: folder, Err: err}
	}
	return nil
}

// readIfThere returns what a file contains, and whether it exists.
func readIfThere(path string) (content []byte, exists bool, err error) {
	content, err = os.ReadFile(path)
	if errors.Is(err, fs.ErrNotExist) {
		return nil, false, nil
	}
	return content, err == nil, err
}

// letRead gives a file that only root can read to the group of the service. It leaves what a link leads to.
func letRead(path string, group int) error {
	info, err := os.Lstat(path)
	if err != nil || !info.Mode().IsRegular() || group == same {
		return nil // The server will say that a file is not there.
	}
	a := accessOf(path, 0)
	if a.group != 0 || a.mode&0o004 != 0 {
		return nil
	}
	if err := os.Chown(path, same, group); err != nil {
		return err
	}
	return os.Chmod(path, a.mode|0o040)
}
