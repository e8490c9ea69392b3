package davserve

import (
	"bytes"
	"context"
	"fmt"
	"log"
	"net/http/httptest"
	"os"
	"path/filepath"
	"strconv"
	"strings"
	"sync"
	"syscall"
	"testing"
	"time"

	"davserve/internal/davd"
)

func TestTheHangTimeout(t *testing.T) {
	for _, test := range []struct {
		timeout, want time.Duration
	}{
		{0, davd.DefaultHangTimeout},
		{leastHang, leastHang},
		{24 * time.Hour, 24 * time.Hour},
		{leastHang - 1, -1},
		{-time.Hour, -1},
	} {
		options, err := Options{Davd: "davd", HangTimeout: test.timeout}.complete()
		if (err == nil) != (test.want >= 0) || err == nil && options.HangTimeout != test.want {
			t.Errorf("%v: %v, %v", test.timeout, options.HangTimeout, err)
		}
	}
}

// A notebook keeps what is logged.
type notebook struct {
	mu   sync.Mutex
	text bytes.Buffer
}

// Write implements io.Writer.
func (n *notebook) Write(p []byte) (int, error) {
	n.mu.Lock()
	defer n.mu.Unlock()
	return n.text.Write(p)
}

// String returns what was logged.
func (n *notebook) String() string {
	n.mu.Lock()
	defer n.mu.Unlock()
	return n.text.String()
}

func TestRequestsGoOnWhenDavdWasStopped(t *testing.T) {
	folder, number := t.TempDir(), filepath.Join(t.TempDir(), "number")
	program := filepath.Join(t.TempDir(), "davd")
	davd, err := filepath.Abs(davdForTests(t))
	if err != nil {
		t.Fatal(err)
	}
	script := fmt.Sprintf("#!/bin/sh\necho $$ >%s\nexec %s \"$@\"\n", number, davd)
	if err := os.WriteFile(program, []byte(script), 0o700); err != nil {
		t.Fatal(err)
	}
	said := &notebook{}
	handler, err := New(context.Background(), Options{
		Davd: program, Folder: folder, Log: log.New(said, "", 0), HangTimeout: leastHang,
	})
	if err != nil {
		t.Fatal(err)
	}
	server := httptest.NewServer(handler)
	t.Cleanup(func() { server.Close(); handler.Close(context.Background()) })
	c := client{t, server}
	c.want(201, "PUT", "/f", "kept")
	stop := func() {
		text, _ := os.ReadFile(number)
		process, err := strconv.Atoi(strings.TrimSpace(string(text)))
		if err != nil || syscall.Kill(process, syscall.SIGSTOP) != nil {
			t.Fatalf("the davd %q was not stopped", text)
		}
	}
	stop()
	if got := c.want(200, "GET", "/f", ""); got != "kept" {
		t.Errorf("the file is %q", got)
	}
	stop()
	c.want(503, "PUT", "/f", "lost")
	c.until(200, "GET", "/f", "") // There is a pause before the third davd.
	if got := c.want(200, "GET", "/f", ""); got != "kept" {
		t.Errorf("the file is %q", got)
	}
	c.want(204, "PUT", "/f", "new")
	if count := strings.Count(said.String(), "davd has something to do, and has not run for 1s"); count != 2 {
		t.Errorf("the log says %d times that davd hangs:\n%s", count, said)
	}
}
