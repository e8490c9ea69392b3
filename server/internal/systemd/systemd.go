// Package systemd is how a program speaks with the system's manager that has started it. Elsewhere it does nothing.
package systemd

import (
	"fmt"
	"net"
	"os"
	"syscall"
)

// States of a service, for Notify.
const (
	Ready    = "READY=1"    // it serves
	Stopping = "STOPPING=1" // it ends
)

// Notify says to systemd in which state the service is, if systemd wants to know it (sd_notify(3)).
func Notify(state string) error {
	socket := os.Getenv("NOTIFY_SOCKET")
	if socket == "" {
		return nil
	}
	connection, err := net.Dial("unixgram", socket)
	if err != nil {
		return fmt.Errorf("systemd cannot be notified: %w", err)
	}
	defer connection.Close()
	if _, err := connection.Write([]byte(state)); err != nil {
		return fmt.Errorf("systemd cannot be notified: %w", err)
	}
	return nil
}

// IsJournal reports whether a file is a stream to the journal of systemd, which adds the time to each line.
func IsJournal(file *os.File) bool {
	info, err := file.Stat()
	if err != nil {
		return false
	}
	stat, ok := info.Sys().(*syscall.Stat_t)
	return ok && os.Getenv("JOURNAL_STREAM") == fmt.Sprintf("%d:%d", stat.Dev, stat.Ino)
}
