// Package control is how an operator gives commands to a server that runs: as HTTP requests to a socket, which only the
// user of the server can open.
package control

import (
	"context"
	"errors"
	"fmt"
	"io/fs"
	"net"
	"os"
	"syscall"
)

// longestPath is how many bytes the path of a socket may have.
const longestPath = len(syscall.RawSockaddrUnix{}.Path) - 1

// Listen listens on a socket at a path. It replaces a socket at which nobody listens any more, such as that of a server
// that was killed.
func Listen(path string) (net.Listener, error) {
	if err := checkPath(path); err != nil {
		return nil, err
	}
	if err := removeStale(path); err != nil {
		return nil, fmt.Errorf("the socket: %w", err)
	}
	config := net.ListenConfig{Control: func(_, _ string, socket syscall.RawConn) error {
		return socket.Control(func(fd uintptr) { syscall.Fchmod(int(fd), 0o600) }) // before it has its name
	}}
	listener, err := config.Listen(context.Background(), "unix", path)
	if err != nil {
		return nil, err
	}
	if err := os.Chmod(path, 0o600); err != nil {
		listener.Close()
		return nil, err
	}
	return listener, nil
}

// checkPath refuses a path that no socket can have.
func checkPath(path string) error {
	if len(path) > longestPath {
		return fmt.Errorf("the path of the socket %s has %d bytes, at most %d are possible", path, len(path), longestPath)
	}
	return nil
}

// removeStale removes a socket at which nobody listens. Anything else at the path is an error.
func removeStale(path string) error {
	info, err := os.Lstat(path)
	switch {
	case errors.Is(err, fs.ErrNotExist):
		return nil
	case err != nil:
		return err
	case info.Mode().Type() != fs.ModeSocket:
		return fmt.Errorf("%s is no socket", path)
	}
	connection, err := net.Dial("unix", path)
	switch {
	case err == nil:
		connection.Close()
		return fmt.Errorf("another process listens at %s", path)
	case errors.Is(err, syscall.ECONNREFUSED):
		return os.Remove(path)
	}
	return err
}
