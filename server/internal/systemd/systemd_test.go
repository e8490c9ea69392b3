package systemd

import (
	"fmt"
	"net"
	"os"
	"path/filepath"
	"syscall"
	"testing"
	"time"
)

func TestNotify(t *testing.T) {
	path := filepath.Join(t.TempDir(), "notify")
	socket, err := net.ListenUnixgram("unixgram", &net.UnixAddr{Name: path, Net: "unixgram"})
	if err != nil {
		t.Fatal(err)
	}
	defer socket.Close()
	t.Setenv("NOTIFY_SOCKET", path)
	if err := Notify(Ready); err != nil {
		t.Fatal(err)
	}
	buffer := make([]byte, 100)
	socket.SetReadDeadline(time.Now().Add(5 * time.Second))
	n, err := socket.Read(buffer)
	if got := string(buffer[:n]); err != nil || got != "READY=1" {
		t.Errorf("systemd gets %q, %v", got, err)
	}
}

func TestNotifyWithoutSystemd(t *testing.T) {
	t.Setenv("NOTIFY_SOCKET", "")
	if err := Notify(Ready); err != nil {
		t.Errorf("without a socket: %v", err)
	}
	t.Setenv("NOTIFY_SOCKET", filepath.Join(t.TempDir(), "none"))
	if err := Notify(Ready); err == nil {
		t.Error("a socket that does not exist is no error")
	}
}

func TestIsJournal(t *testing.T) {
	file, err := os.Create(filepath.Join(t.TempDir(), "stream"))
	if err != nil {
		t.Fatal(err)
	}
	info, err := file.Stat()
	if err != nil {
		t.Fatal(err)
	}
	stat := info.Sys().(*syscall.Stat_t)
	tests := []struct {
		stream string
		want   bool
	}{
		{fmt.Sprintf("%d:%d", stat.Dev, stat.Ino), true},
		{fmt.Sprintf("%d:%d", stat.Dev, stat.Ino+1), false},
		{"", false},
		{"x", false},
	}
	for _, test := range tests {
		t.Setenv("JOURNAL_STREAM", test.stream)
		if got := IsJournal(file); got != test.want {
			t.Errorf("%q: %v", test.stream, got)
		}
	}
	t.Setenv("JOURNAL_STREAM", tests[0].stream)
	file.Close()
	if IsJournal(file) {
		t.Error("a closed file is the journal")
	}
}
