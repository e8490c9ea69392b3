package davserve

import (
	"bytes"
	"context"
	"fmt"
	"io"
	"log"
	"net"
	"net/http"
	"net/http/httptest"
	"os"
	"path/filepath"
	"strconv"
	"strings"
	"syscall"
	"testing"
	"time"
)

// raw sends bytes on a connection of its own, and returns what comes back.
func (c client) raw(request string) string {
	c.t.Helper()
	connection, err := net.Dial("tcp", c.server.Listener.Addr().String())
	if err != nil {
		c.t.Fatal(err)
	}
	defer connection.Close()
	connection.SetDeadline(time.Now().Add(10 * time.Second))
	io.WriteString(connection, request)
	answer, _ := io.ReadAll(connection)
	return string(answer)
}

func TestAnEmptyPathIsTheRoot(t *testing.T) {
	c := startServer(t, Options{})
	answer := c.raw("GET http://h HTTP/1.1\r\nHost: h\r\nConnection: close\r\n\r\n")
	if !strings.HasPrefix(answer, "HTTP/1.1 200 ") {
		t.Errorf("the answer is %q", answer)
	}
}

func TestARedirectStaysOnThisHost(t *testing.T) {
	c := startServer(t, Options{})
	c.want(201, "MKCOL", "/other.example/", "")
	answer := c.raw("GET //other.example HTTP/1.1\r\nHost: h\r\nConnection: close\r\n\r\n")
	if !strings.Contains(answer, "\r\nLocation: /other.example/\r\n") {
		t.Errorf("the answer is %q", answer)
	}
}

func TestHeadHasNoRanges(t *testing.T) {
	c := startServer(t, Options{})
	c.want(201, "PUT", "/f", "hello")
	for _, wanted := range []string{"bytes=0-1", "bytes=9-"} {
		response, _ := c.do("HEAD", "/f", nil, "Range: "+wanted)
		if response.StatusCode != 200 || response.ContentLength != 5 {
			t.Errorf("%s: status %d, length %d", wanted, response.StatusCode, response.ContentLength)
		}
	}
}

func TestMoreRangesThanAnyoneNeedsAreIgnored(t *testing.T) {
	c := startServer(t, Options{})
	c.want(201, "PUT", "/f", strings.Repeat("x", 400_000))
	c.want(206, "GET", "/f", "", "Range: bytes=0-0"+strings.Repeat(",300000-300000", maxRanges-1))
	c.want(200, "GET", "/f", "", "Range: bytes=0-0"+strings.Repeat(",300000-300000", maxRanges))
}

func TestAnUnknownMethodIs501WhateverItsBody(t *testing.T) {
	c := startServer(t, Options{})
	c.want(501, "REPORT", "/", "<a/>")
	c.want(501, "REPORT", "/", "")
}

func TestNoUpdateRangeGoesAroundTheQuota(t *testing.T) {
	c := startServer(t, Options{Quota: 1000})
	c.want(507, "PUT", "/f", "hello", "Content-Range: bytes 5000-5004/5005", "X-Update-Range: bytes=0-4")
	c.want(404, "GET", "/f", "")
	c.want(201, "PUT", "/f", "hello")
	c.want(507, "PATCH", "/f", "hello", "Content-Type: application/x-sabredav-partialupdate",
		"X-Update-Range: bytes=0-4", "Content-Range: bytes 5000-5004/*")
	if text := c.want(200, "GET", "/f", ""); text != "hello" {
		t.Errorf("after the PATCH the file is %q", text)
	}
}

// A stuckWriter is that of a client that does not read.
type stuckWriter struct {
	header     http.Header
	stuck, end chan struct{}
}

// Header implements http.ResponseWriter.
func (w *stuckWriter) Header() http.Header { return w.header }

// WriteHeader implements http.ResponseWriter.
func (w *stuckWriter) WriteHeader(int) {
	close(w.stuck)
	<-w.end
}

// Write implements http.ResponseWriter.
func (w *stuckWriter) Write(b []byte) (int, error) { return len(b), nil }

func TestAResponseThatNobodyReadsHoldsNoRoom(t *testing.T) {
	c := startServer(t, Options{Quota: 1000})
	c.want(201, "PUT", "/f", strings.Repeat("x", 400))
	for _, request := range []*http.Request{
		httptest.NewRequest("COPY", "/f", nil),
		httptest.NewRequest("PUT", "/g", strings.NewReader("x")),
	} {
		request.Header.Set("Destination", "/g")
		w := &stuckWriter{header: http.Header{}, stuck: make(chan struct{}), end: make(chan struct{})}
		go c.server.Config.Handler.ServeHTTP(w, request)
		<-w.stuck
		served := make(chan struct{})
		go func() {
			defer close(served)
			c.want(507, "PUT", "/h", strings.Repeat("x", 700)) // It writes alone.
		}()
		select {
		case <-served:
		case <-time.After(10 * time.Second):
			t.Errorf("a PUT waits for the response to a %s", request.Method)
		}
		close(w.end)
		<-served
	}
}

func TestACopyOfAFileWithASlashCounts(t *testing.T) {
	c := startServer(t, Options{Quota: 1000})
	c.want(201, "PUT", "/f", strings.Repeat("x", 900))
	c.want(507, "COPY", "/f/", "", "Depth: 0", "Destination: /g")
	c.want(404, "GET", "/g", "")
	c.want(201, "MKCOL", "/d/", "")
	c.want(201, "PUT", "/d/f", strings.Repeat("x", 100))
	c.want(201, "COPY", "/d/", "", "Depth: 0", "Destination: /e/")
}

func TestACopyHasTheSameStatusWithAQuota(t *testing.T) {
	plain, limited := startServer(t, Options{}), startServer(t, Options{Quota: 1000})
	for _, path := range []string{"/none", "/%00", "/%2F", "/a%2Fb", "/%2e%2e"} {
		want, _ := plain.do("COPY", path, nil, "Destination: /g")
		got, _ := limited.do("COPY", path, nil, "Destination: /g")
		if got.StatusCode != want.StatusCode {
			t.Errorf("%s: status %d, want %d", path, got.StatusCode, want.StatusCode)
		}
	}
}

func TestAFileThatIsRemovedBeforeItIsReplacedCounts(t *testing.T) {
	c := startServer(t, Options{Quota: 1000})
	h := c.server.Config.Handler.(*Handler)
	c.want(201, "PUT", "/f", strings.Repeat("x", 900))
	release, err := h.reserveUpload(httptest.NewRequest("PUT", "/f", nil), 950) // 50 bytes more than /f has
	if err != nil {
		t.Fatal(err)
	}
	c.want(204, "DELETE", "/f", "")
	other := make(chan int)
	go func() { // It waits until the other 950 bytes are written.
		response, _ := c.do("PUT", "/g", strings.NewReader(strings.Repeat("x", 600)))
		other <- response.StatusCode
	}()
	select {
	case status := <-other:
		t.Errorf("the status is %d before it is known whether 950 bytes of 1000 are written", status)
	case <-time.After(50 * time.Millisecond):
	}
	release() // They were not.
	if status := <-other; status != http.StatusCreated {
		t.Errorf("the status is %d", status)
	}
}

func TestAShrinkingFileNeedsNoRoom(t *testing.T) {
	q := newQuota(100, usedBytes(150))
	release, err := q.reserve(context.Background(), 200, exactly(0))
	if err != nil {
		t.Fatalf("beyond the quota, no bytes more: %v", err)
	}
	release()
	if _, err := q.reserve(context.Background(), 200, exactly(1)); err == nil {
		t.Error("beyond the quota, one byte more has room")
	}
}

func TestIfUnmodifiedSince(t *testing.T) {
	c := startServer(t, Options{})
	c.want(201, "PUT", "/f", "new")
	const old = "If-Unmodified-Since: Thu, 01 Jan 2015 00:00:00 GMT"
	c.want(412, "PUT", "/f", "lost", old)
	c.want(412, "DELETE", "/f", "", old)
	c.want(412, "MOVE", "/f", "", old, "Destination: /g")
	if got := c.want(200, "GET", "/f", ""); got != "new" {
		t.Errorf("the file is %q", got)
	}
	c.want(201, "PUT", "/g", "x", old) // RFC 9110: there is no date to compare with.
	now := "If-Unmodified-Since: " + time.Now().Add(time.Minute).UTC().Format(http.TimeFormat)
	c.want(204, "PUT", "/f", "newer", now)
}

// startKillable starts a server whose davd the test can kill.
func startKillable(t *testing.T) (c client, kill func()) {
	t.Helper()
	davd, err := filepath.Abs(davdForTests(t))
	if err != nil {
		t.Fatal(err)
	}
	folder := t.TempDir()
	program, number := filepath.Join(folder, "davd"), filepath.Join(folder, "number")
	script := fmt.Sprintf("#!/bin/sh\necho $$ >%s\nexec %s \"$@\"\n", number, davd)
	if err := os.WriteFile(program, []byte(script), 0o700); err != nil {
		t.Fatal(err)
	}
	handler, err := New(context.Background(), Options{Davd: program, Log: log.New(io.Discard, "", 0)})
	if err != nil {
		t.Fatal(err)
	}
	server := httptest.NewServer(handler)
	server.Config.ErrorLog = log.New(io.Discard, "", 0)
	t.Cleanup(func() { server.Close(); handler.Close(context.Background()) })
	return client{t, server}, func() {
		text, _ := os.ReadFile(number)
		process, err := strconv.Atoi(strings.TrimSpace(string(text)))
		if err != nil || syscall.Kill(process, syscall.SIGKILL) != nil {
			t.Fatalf("the davd %q was not killed", text)
		}
	}
}

// until repeats a request until it has this status.
func (c client) until(status int, method, path, body string) {
	c.t.Helper()
	for end := time.Now().Add(10 * time.Second); ; time.Sleep(5 * time.Millisecond) {
		response, _ := c.do(method, path, strings.NewReader(body))
		if response.StatusCode == status {
			return
		}
		if time.Now().After(end) {
			c.t.Fatalf("%s %s: status %d, want %d", method, path, response.StatusCode, status)
		}
	}
}

func TestADownloadDoesNotGoOnWithTheNextDavd(t *testing.T) {
	c, kill := startKillable(t)
	const size = 40 << 20
	c.want(201, "PUT", "/f", strings.Repeat("a", size))
	response, err := c.server.Client().Get(c.server.URL + "/f")
	if err != nil {
		t.Fatal(err)
	}
	defer response.Body.Close()
	time.Sleep(300 * time.Millisecond) // The buffers of the connection are full then, and no piece is being read.
	kill()
	c.until(201, "PUT", "/f", strings.Repeat("b", size)) // It gets the tag of the old file.
	got, err := io.ReadAll(response.Body)
	if err == nil || bytes.ContainsRune(got, 'b') {
		t.Errorf("%d bytes, error %v: want an error, and no byte of the new file", len(got), err)
	}
}
