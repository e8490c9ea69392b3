package limit

import (
	"errors"
	"fmt"
	"io"
	"net"
	"net/http"
	"os"
	"strings"
	"sync"
	"testing"
	"time"

	"davserve/internal/netconn"
)

// listen returns a listener on a free port.
func listen(t *testing.T) net.Listener {
	t.Helper()
	l, err := net.Listen("tcp", "127.0.0.1:0")
	if err != nil {
		t.Fatal(err)
	}
	t.Cleanup(func() { l.Close() })
	return l
}

// dial returns a connection of a client.
func dial(t *testing.T, l net.Listener) net.Conn {
	t.Helper()
	c, err := net.Dial("tcp", l.Addr().String())
	if err != nil {
		t.Fatal(err)
	}
	t.Cleanup(func() { c.Close() })
	return c
}

// accepted returns a channel with the connections that l accepts, until it is closed.
func accepted(l net.Listener) <-chan net.Conn {
	conns := make(chan net.Conn)
	go func() {
		defer close(conns)
		for {
			c, err := l.Accept()
			if err != nil {
				return
			}
			conns <- c
		}
	}()
	return conns
}

// next returns the next connection, or nil if there is none for a while.
func next(conns <-chan net.Conn, d time.Duration) net.Conn {
	select {
	case c := <-conns:
		return c
	case <-time.After(d):
		return nil
	}
}

func TestListener(t *testing.T) {
	l := Listener(listen(t), 2, 0)
	defer l.Close()
	conns := accepted(l)
	for i := 0; i < 4; i++ {
		dial(t, l)
	}
	first, second := next(conns, 5*time.Second), next(conns, 5*time.Second)
	if first == nil || second == nil {
		t.Fatal("two connections are not open")
	}
	if c := next(conns, 100*time.Millisecond); c != nil {
		t.Fatal("a third connection is open")
	}
	first.Close()
	first.Close() // gives nothing back again
	third := next(conns, 5*time.Second)
	if third == nil {
		t.Fatal("a closed connection made no place")
	}
	if c := next(conns, 100*time.Millisecond); c != nil {
		t.Fatal("a connection closed twice made two places")
	}
	second.Close()
	third.Close()
	fourth := next(conns, 5*time.Second)
	if fourth == nil {
		t.Fatal("the last connection was not accepted")
	}
	fourth.Close()
}

func TestListenerClose(t *testing.T) {
	tests := []struct {
		name string
		open int
	}{
		{"waits for a connection", 0},
		{"waits for a place", 1},
	}
	for _, test := range tests {
		t.Run(test.name, func(t *testing.T) {
			l := Listener(listen(t), 1, 0)
			for i := 0; i < test.open; i++ {
				dial(t, l)
				c, err := l.Accept()
				if err != nil {
					t.Fatal(err)
				}
				defer c.Close()
			}
			result := make(chan error)
			go func() {
				_, err := l.Accept()
				result <- err
			}()
			time.Sleep(20 * time.Millisecond)
			if err := l.Close(); err != nil {
				t.Error(err)
			}
			select {
			case err := <-result:
				if !errors.Is(err, net.ErrClosed) {
					t.Errorf("Accept: %v", err)
				}
			case <-time.After(5 * time.Second):
				t.Error("Accept did not return")
			}
			if err := l.Close(); !errors.Is(err, net.ErrClosed) {
				t.Errorf("second Close: %v", err)
			}
		})
	}
}

// A failing listener fails twice, and then has connections.
type failing struct {
	net.Listener
	failures int
}

func (f *failing) Accept() (net.Conn, error) {
	if f.failures > 0 {
		f.failures--
		return nil, io.ErrUnexpectedEOF
	}
	return f.Listener.Accept()
}

func TestListenerFailedAccept(t *testing.T) {
	l := Listener(&failing{Listener: listen(t), failures: 2}, 1, 0)
	defer l.Close()
	for i := 0; i < 2; i++ {
		if _, err := l.Accept(); err != io.ErrUnexpectedEOF {
			t.Fatal(err)
		}
	}
	dial(t, l)
	if c := next(accepted(l), 5*time.Second); c == nil {
		t.Error("a failed Accept kept its place")
	}
}

func TestCloseWrite(t *testing.T) {
	l := Listener(listen(t), 1, 0)
	defer l.Close()
	client := dial(t, l)
	server, err := l.Accept()
	if err != nil {
		t.Fatal(err)
	}
	defer server.Close()
	if err := server.(interface{ CloseWrite() error }).CloseWrite(); err != nil {
		t.Fatal(err)
	}
	if n, err := client.Read(make([]byte, 1)); n != 0 || err != io.EOF {
		t.Errorf("the client reads %d bytes, %v", n, err)
	}
	if _, err := client.Write([]byte("x")); err != nil {
		t.Error(err)
	}
	if n, err := server.Read(make([]byte, 1)); n != 1 || err != nil {
		t.Errorf("the server reads %d bytes, %v", n, err)
	}
	other, peer := net.Pipe()
	defer peer.Close()
	if err := (&conn{Wrapper: netconn.Wrapper{Conn: other}}).CloseWrite(); err == nil {
		t.Error("a pipe has a CloseWrite")
	}
}

// A counting listener counts its open connections.
type counting struct {
	net.Listener
	mu         sync.Mutex
	open, peak int
}

func (c *counting) Accept() (net.Conn, error) {
	accepted, err := c.Listener.Accept()
	if err != nil {
		return nil, err
	}
	c.mu.Lock()
	defer c.mu.Unlock()
	c.open++
	if c.open > c.peak {
		c.peak = c.open
	}
	return &counted{TCPConn: accepted.(*net.TCPConn), in: c}, nil
}

// A counted connection is open until its first Close.
type counted struct {
	*net.TCPConn
	in   *counting
	once sync.Once
}

func (c *counted) Close() error {
	err := c.TCPConn.Close()
	c.once.Do(func() {
		c.in.mu.Lock()
		defer c.in.mu.Unlock()
		c.in.open--
	})
	return err
}

// A server answers large uploads without reading them, and each client gets its response.
func TestListenerServes(t *testing.T) {
	const most, clients = 3, 9
	inner := &counting{Listener: listen(t)}
	l := Listener(inner, most, 0)
	server := &http.Server{Handler: http.HandlerFunc(func(w http.ResponseWriter, r *http.Request) {
		w.WriteHeader(http.StatusRequestEntityTooLarge)
	})}
	defer server.Close()
	go server.Serve(l)
	errs := make(chan error, clients)
	for i := 0; i < clients; i++ {
		go func() { errs <- upload(l.Addr().String()) }()
	}
	for i := 0; i < clients; i++ {
		if err := <-errs; err != nil {
			t.Error(err)
		}
	}
	inner.mu.Lock()
	defer inner.mu.Unlock()
	if inner.peak != most {
		t.Errorf("%d connections were open at once", inner.peak)
	}
}

// upload sends a body of 1 MiB on a connection of its own, and expects 413.
func upload(addr string) error {
	c, err := net.Dial("tcp", addr)
	if err != nil {
		return err
	}
	defer c.Close()
	c.SetDeadline(time.Now().Add(20 * time.Second))
	go fmt.Fprintf(c, "PUT / HTTP/1.1\r\nHost: h\r\nContent-Length: 1048576\r\n\r\n%s", strings.Repeat("x", 1<<20))
	status := make([]byte, len("HTTP/1.1 413"))
	if _, err := io.ReadFull(c, status); err != nil {
		return err
	}
	if string(status) != "HTTP/1.1 413" {
		return fmt.Errorf("status line %q", status)
	}
	return nil
}

func TestWriteToAClientThatStalls(t *testing.T) {
	l := Listener(listen(t), 1, 50*time.Millisecond)
	dial(t, l) // It never reads.
	c := <-accepted(l)
	for i := 0; i < 1000; i++ {
		if _, err := c.Write(make([]byte, 1<<20)); err != nil {
			if !errors.Is(err, os.ErrDeadlineExceeded) {
				t.Errorf("Write: %v", err)
			}
			return
		}
	}
	t.Error("a client that reads nothing gets a thousand megabytes")
}

// One large write may take longer than the time, if the client goes on reading.
func TestWriteToASlowClient(t *testing.T) {
	const all, stall = 64 << 20, 500 * time.Millisecond
	l := Listener(listen(t), 1, stall)
	client := dial(t, l)
	c := <-accepted(l)
	defer c.Close()
	read := make(chan int64, 1)
	go func() {
		var n int64
		for n < all {
			m, err := io.CopyN(io.Discard, client, 1<<20)
			n += m
			if err != nil {
				break
			}
			time.Sleep(stall / 20)
		}
		read <- n
	}()
	start := time.Now()
	n, err := c.Write(make([]byte, all))
	if n != all || err != nil {
		t.Errorf("%d bytes after %v: %v", n, time.Since(start), err)
	}
	if d := time.Since(start); d < stall {
		t.Errorf("the client was not slow: %v", d)
	}
	c.Close()
	if n := <-read; n != all {
		t.Errorf("the client has %d bytes", n)
	}
}
