package auth

import (
	"errors"
	"fmt"
	"io"
	"log"
	"os"
	"strings"
	"sync"
	"time"
)

const (
	maxFile       = 16 << 20        // bytes of an htpasswd file
	checkInterval = time.Second     // between two looks at the file
	settleTime    = 2 * time.Second // after which a further change has another time
)

// Users are the users of an htpasswd file. When the file changes, they change with it within a second.
type Users struct {
	// Log gets the errors of reloads. Set it before the first request. If it is nil, log.Default() gets them.
	Log *log.Logger

	path string
	now  func() time.Time

	mu      sync.Mutex
	table   *table
	info    os.FileInfo // of the file that has the table; nil: the next check reads it again
	checked time.Time
	failure string // the error that was logged last, empty when the file was good since
}

// Load reads an htpasswd file. Its passwords are bcrypt hashes ($2a$, $2b$ or $2y$) with a cost of at most 14, its
// names are UTF-8 without control characters and each occurs once, and blank lines and lines that begin with #
// are skipped. Everything else is an error, which has the number of the line.
//
// Later the file is checked at most once a second, when a request comes. It is read again if its time, size or inode
// changed. If that fails, the users stay as they are, and the error is logged once.
func Load(path string) (*Users, error) {
	return load(path, time.Now)
}

func load(path string, now func() time.Time) (*Users, error) {
	u := &Users{path: path, now: now, checked: now()}
	if err := u.read(); err != nil {
		return nil, err
	}
	return u, nil
}

// current returns the present users.
func (u *Users) current() *table {
	u.mu.Lock()
	defer u.mu.Unlock()
	if now := u.now(); now.Sub(u.checked) >= checkInterval {
		u.checked = now
		u.refresh()
	}
	return u.table
}

// refresh reads the file if it has changed.
func (u *Users) refresh() {
	if u.info != nil {
		if info, err := os.Stat(u.path); err == nil && isSame(info, u.info) {
			u.failure = ""
			return
		}
	}
	err := u.read()
	if err == nil {
		u.failure = ""
		return
	}
	if err.Error() == u.failure {
		return
	}
	u.failure = err.Error()
	logger := u.Log
	if logger == nil {
		logger = log.Default()
	}
	logger.Printf("%v (the users stay as they were)", err)
}

// isSame reports whether two descriptions are those of the same unchanged file.
func isSame(a, b os.FileInfo) bool {
	return os.SameFile(a, b) && a.ModTime().Equal(b.ModTime()) && a.Size() == b.Size()
}

// read replaces the table by what the file has.
func (u *Users) read() error {
	file, info, err := readFile(u.path)
	if err != nil {
		return fmt.Errorf("users: %w", err)
	}
	t, err := parse(file)
	if err != nil {
		return fmt.Errorf("users: %s: %w", u.path, err)
	}
	u.table, u.info = t, info
	// A file that changed just now may change again without another time or size.
	if u.now().Sub(info.ModTime()) < settleTime {
		u.info = nil
	}
	return nil
}

// readFile returns the content of a regular file, and how the file was before it was read.
func readFile(path string) (string, os.FileInfo, error) {
	if info, err := os.Stat(path); err != nil {
		return "", nil, err
	} else if !info.Mode().IsRegular() { // opening a pipe could wait forever
		return "", nil, &os.PathError{Op: "open", Path: path, Err: errors.New("not a regular file")}
	}
	f, err := os.Open(path)
	if err != nil {
		return "", nil, err
	}
	defer f.Close()
	info, err := f.Stat()
	if err != nil {
		return "", nil, err
	}
	var content strings.Builder
	n, err := io.Copy(&content, io.LimitReader(f, maxFile+1))
	if err != nil {
		return "", nil, err
	}
	if n > maxFile {
		return "", nil, &os.PathError{Op: "read", Path: path, Err: fmt.Errorf("more than %d bytes", maxFile)}
	}
	return content.String(), info, nil
}
