package transfer

import (
	"crypto/rand"
	"encoding/hex"
	"errors"
	"fmt"
	"io/fs"
	"os"
	"path/filepath"
	"sort"
	"strings"
	"syscall"
	"time"

	"golang.org/x/sys/unix"
)

// A folder is an open directory of a file system. Its methods get the name of a member, and never follow a symbolic link.
// So nothing outside of the outermost folder is read or written, whoever puts links into it meanwhile.
type folder struct {
	file *os.File
	name string // its path, for messages
}

// kind is what exists at a name.
type kind int

const (
	isFile kind = iota
	isDirectory
	isLink
	isPipe
	isSocket
	isDevice
)

func (k kind) String() string {
	return [...]string{"a file", "a directory", "a symbolic link", "a named pipe", "a socket", "a device"}[k]
}

// An entry is what is known of a member of a folder.
type entry struct {
	kind     kind
	length   int64
	modified time.Time
	device   uint64
	number   uint64 // on the device
}

// openFolder opens the outermost folder. Only here links of the path are followed.
func openFolder(path string) (*folder, error) {
	file, err := os.Open(path)
	if err != nil {
		return nil, err
	}
	if info, err := file.Stat(); err != nil || !info.IsDir() {
		file.Close()
		return nil, &fs.PathError{Op: "open", Path: path, Err: unix.ENOTDIR}
	}
	return &folder{file: file, name: path}, nil
}

func (f *folder) fd() int { return int(f.file.Fd()) }

func (f *folder) path(name string) string { return filepath.Join(f.name, name) }

func (f *folder) close() { f.file.Close() }

// openAt opens a member that is no symbolic link.
func (f *folder) openAt(name string, flags int, mode uint32) (*os.File, error) {
	for {
		fd, err := unix.Openat(f.fd(), name, flags|unix.O_NOFOLLOW|unix.O_CLOEXEC, mode)
		if err == nil {
			return os.NewFile(uintptr(fd), f.path(name)), nil
		}
		if err != unix.EINTR {
			return nil, f.failed("open", name, err)
		}
	}
}

// failed returns an error of a member, or nil.
func (f *folder) failed(what, name string, err error) error {
	if err == nil {
		return nil
	}
	return &fs.PathError{Op: what, Path: f.path(name), Err: err}
}

// open opens a directory.
func (f *folder) open(name string) (*folder, error) {
	file, err := f.openAt(name, unix.O_RDONLY|unix.O_DIRECTORY, 0)
	if err != nil {
		return nil, err
	}
	return &folder{file: file, name: file.Name()}, nil
}

// names returns the names of all members, in order.
func (f *folder) names() ([]string, error) {
	names, err := f.file.Readdirnames(-1)
	sort.Strings(names)
	return names, err
}

// look returns what is known of a member. If there is none, the error is fs.ErrNotExist.
func (f *folder) look(name string) (entry, error) {
	var found unix.Stat_t
	if err := unix.Fstatat(f.fd(), name, &found, unix.AT_SYMLINK_NOFOLLOW); err != nil {
		return entry{}, f.failed("stat", name, err)
	}
	return entryOf(&found), nil
}

// state returns what is known of an open file.
func state(file *os.File) (entry, error) {
	var found unix.Stat_t
	if err := unix.Fstat(int(file.Fd()), &found); err != nil {
		return entry{}, &fs.PathError{Op: "stat", Path: file.Name(), Err: err}
	}
	return entryOf(&found), nil
}

func entryOf(found *unix.Stat_t) entry {
	e := entry{
		kind:     isDevice,
		length:   found.Size,
		modified: time.Unix(found.Mtim.Unix()),
		device:   uint64(found.Dev),
		number:   found.Ino,
	}
	switch found.Mode & unix.S_IFMT {
	case unix.S_IFREG:
		e.kind = isFile
	case unix.S_IFDIR:
		e.kind = isDirectory
	case unix.S_IFLNK:
		e.kind = isLink
	case unix.S_IFIFO:
		e.kind = isPipe
	case unix.S_IFSOCK:
		e.kind = isSocket
	}
	return e
}

// isSame reports whether an entry is that of a file or directory.
func (e entry) isSame(info fs.FileInfo) bool {
	other, ok := info.Sys().(*syscall.Stat_t)
	return ok && e.device == uint64(other.Dev) && e.number == other.Ino
}

// read opens a file for reading. It does not wait for the other end of a named pipe.
func (f *folder) read(name string) (*os.File, entry, error) {
	file, err := f.openAt(name, unix.O_RDONLY|unix.O_NONBLOCK, 0)
	if err != nil {
		return nil, entry{}, err
	}
	found, err := state(file)
	if err == nil && found.kind != isFile {
		err = fmt.Errorf("it is %v now", found.kind)
	}
	if err != nil {
		file.Close()
		return nil, entry{}, err
	}
	return file, found, nil
}

// mkdir makes a directory, if there is none. It reports whether it did.
func (f *folder) mkdir(name string) (made bool, err error) {
	err = unix.Mkdirat(f.fd(), name, 0o777)
	if errors.Is(err, fs.ErrExist) {
		return false, nil
	}
	return err == nil, f.failed("mkdir", name, err)
}

// temporary is what the names of files begin with that are not whole yet.
const temporary = ".davserve-export-"

// create makes a file with a new name.
func (f *folder) create() (*os.File, string, error) {
	var random [8]byte
	if _, err := rand.Read(random[:]); err != nil {
		return nil, "", err
	}
	name := temporary + hex.EncodeToString(random[:])
	file, err := f.openAt(name, unix.O_WRONLY|unix.O_CREAT|unix.O_EXCL, 0o666)
	return file, name, err
}

// rename gives a file another name, in the place of the file that has it.
func (f *folder) rename(from, to string) error {
	return f.failed("rename", to, unix.Renameat(f.fd(), from, f.fd(), to))
}

// remove removes a file.
func (f *folder) remove(name string) { unix.Unlinkat(f.fd(), name, 0) }

// setModified sets when a member was last modified. The name of the folder itself is a dot.
func (f *folder) setModified(name string, modified time.Time) error {
	at, err := unix.TimeToTimespec(modified)
	if err == nil {
		err = unix.UtimesNanoAt(f.fd(), name, []unix.Timespec{at, at}, unix.AT_SYMLINK_NOFOLLOW)
	}
	return f.failed("set the time of", name, err)
}

// isInside reports whether a directory is another one, or inside of it.
func isInside(path, folder string) (bool, error) {
	other, err := os.Stat(folder)
	if err == nil {
		path, err = filepath.Abs(path)
	}
	if err == nil {
		path, err = filepath.EvalSymlinks(path) // So that each directory above is one of the path.
	}
	if err != nil {
		return false, err
	}
	for {
		info, err := os.Stat(path)
		if err != nil || os.SameFile(info, other) {
			return err == nil, err
		}
		above := filepath.Dir(path)
		if above == path {
			return false, nil
		}
		path = above
	}
}

// isPossible reports whether a member of a folder may have a name.
func isPossible(name string) bool {
	return isName(name) && !strings.ContainsAny(name, "/\x00")
}
