package limit

import (
	"bufio"
	"crypto/tls"
	"errors"
	"fmt"
	"io"
	"net"
	"net/http"
	"net/http/httptest"
	"os"
	"sync"
	"testing"
	"time"

	"davserve/internal/share"
)

// from dials from an address of the loopback.
func from(t *testing.T, source string, l net.Listener) net.Conn {
	t.Helper()
	dialer := net.Dialer{LocalAddr: &net.TCPAddr{IP: net.ParseIP(source)}, Timeout: 5 * time.Second}
	c, err := dialer.Dial("tcp", l.Addr().String())
	if err != nil {
		t.Fatal(err)
	}
	t.Cleanup(func() { c.Close() })
	return c
}

// bySource has a connection belong to the client at its address. The one at 127.0.0.9 is a proxy.
func bySource(c net.Conn) (share.Key, bool) {
	host, _, _ := net.SplitHostPort(c.RemoteAddr().String())
	return share.Key(host), host == "127.0.0.9"
}

// shared serves with at most so many connections. A request for /slow is answered when hold is closed.
func shared(t *testing.T, most int) (l *Connections, hold chan struct{}) {
	t.Helper()
	hold = make(chan struct{})
	l = NewConnections(listen(t), most, time.Minute, bySource)
	server := &http.Server{ConnContext: ConnContext, Handler: l.Handler(http.HandlerFunc(
		func(w http.ResponseWriter, r *http.Request) {
			if r.URL.Path == "/slow" {
				<-hold
			}
		}))}
	go server.Serve(l)
	t.Cleanup(func() { server.Close() })
	return l, hold
}

// served reports whether a request on a connection is answered in time.
func served(c net.Conn, path string, d time.Duration) bool {
	c.SetDeadline(time.Now().Add(d))
	fmt.Fprintf(c, "GET %s HTTP/1.1\r\nHost: h\r\n\r\n", path)
	response, err := http.ReadResponse(bufio.NewReader(c), nil)
	return err == nil && response.StatusCode == http.StatusOK
}

func eventually(t *testing.T, what string, is func() bool) {
	t.Helper()
	for start := time.Now(); !is(); time.Sleep(time.Millisecond) {
		if time.Since(start) > 5*time.Second {
			t.Fatalf("not so after %v: %s", time.Since(start), what)
		}
	}
}

func TestConnectionsAreShared(t *testing.T) {
	tests := []struct {
		name, greedy, modest string
		path                 string // of the requests of the greedy client; empty: none
		isServed             bool   // the modest client is
	}{
		{"idle ones", "127.0.0.1", "127.0.0.2", "/", true},
		{"ones without a request", "127.0.0.1", "127.0.0.2", "", true},
		{"busy ones", "127.0.0.1", "127.0.0.2", "/slow", false},
		{"those of the same client", "127.0.0.1", "127.0.0.1", "/", false},
		{"those of a proxy", "127.0.0.9", "127.0.0.2", "/", false},
		{"for a proxy", "127.0.0.1", "127.0.0.9", "/", true},
	}
	for _, test := range tests {
		test := test
		t.Run(test.name, func(t *testing.T) {
			t.Parallel()
			const most = 8
			l, hold := shared(t, most)
			greedy := make([]net.Conn, most)
			for i := range greedy {
				greedy[i] = from(t, test.greedy, l)
				switch test.path {
				case "/":
					if !served(greedy[i], "/", 5*time.Second) {
						t.Fatal("a connection of a client alone is not served")
					}
				case "/slow":
					fmt.Fprint(greedy[i], "GET /slow HTTP/1.1\r\nHost: h\r\n\r\n")
				}
			}
			eventually(t, "all places are taken", func() bool { open, _ := l.Use(); return open == most })
			if test.path == "/slow" {
				eventually(t, "all are busy", func() bool { return l.busy() == most })
			}
			late := from(t, test.modest, l)
			within := 3 * time.Second
			if !test.isServed {
				within = 500 * time.Millisecond
			}
			if served(late, "/", within) != test.isServed {
				t.Errorf("the late connection is served: %v", !test.isServed)
			}
			if open, _ := l.Use(); open != most {
				t.Errorf("%d connections are open", open)
			}
			close(hold)
			greedy[0].Close()
			if !test.isServed && !served(from(t, test.modest, l), "/", time.Millisecond) {
				// The first late one has the place now, and this one waits, which is right.
				return
			}
		})
	}
}

// busy returns how many connections serve a request.
func (c *Connections) busy() (n int) {
	c.mu.Lock()
	defer c.mu.Unlock()
	for _, p := range c.peers {
		for it := range p.open {
			if it.busy > 0 {
				n++
			}
		}
	}
	return n
}

// A client takes no more from another one than half of the places.
func TestConnectionsConverge(t *testing.T) {
	const most = 16
	l, _ := shared(t, most)
	for i := 0; i < most; i++ {
		from(t, "127.0.0.1", l)
	}
	for i := 0; i < most; i++ {
		from(t, "127.0.0.2", l)
	}
	count := func(key share.Key) int {
		l.mu.Lock()
		defer l.mu.Unlock()
		if p := l.peers[key]; p != nil {
			return len(p.open)
		}
		return 0
	}
	eventually(t, "both have half", func() bool { return count("127.0.0.2") >= most/2-1 })
	time.Sleep(3 * restTime)
	if one, other := count("127.0.0.1"), count("127.0.0.2"); one < most/2-1 || other < most/2-1 || one+other != most {
		t.Errorf("the clients have %d and %d connections", one, other)
	}
}

// If the client with the most connections is busy with all of them, one of another client is closed.
func TestConnectionsOfTheNextOne(t *testing.T) {
	const most = 8
	l, hold := shared(t, most)
	defer close(hold)
	for i := 0; i < most; i++ {
		if i < 3 {
			from(t, "127.0.0.2", l)
			continue
		}
		fmt.Fprint(from(t, "127.0.0.1", l), "GET /slow HTTP/1.1\r\nHost: h\r\n\r\n")
	}
	eventually(t, "one client is busy", func() bool { open, _ := l.Use(); return open == most && l.busy() == most-3 })
	if !served(from(t, "127.0.0.3", l), "/", 3*time.Second) {
		t.Error("a client without a connection is not served")
	}
}

// Few connections wait, those beyond are closed, and never all of another client.
func TestConnectionsThatWait(t *testing.T) {
	l, hold := shared(t, 1)
	defer close(hold)
	busy := from(t, "127.0.0.1", l)
	fmt.Fprint(busy, "GET /slow HTTP/1.1\r\nHost: h\r\n\r\n")
	eventually(t, "it is busy", func() bool { return l.busy() == 1 })
	for i := 0; i < leastParked; i++ {
		from(t, "127.0.0.1", l)
	}
	eventually(t, "all wait", func() bool { _, waiting := l.Use(); return waiting == leastParked })
	beyond := from(t, "127.0.0.1", l)
	beyond.SetReadDeadline(time.Now().Add(5 * time.Second))
	if _, err := beyond.Read(make([]byte, 1)); err == nil || errors.Is(err, os.ErrDeadlineExceeded) {
		t.Errorf("a connection beyond those that may wait is open: %v", err)
	}
	other := from(t, "127.0.0.2", l)
	other.SetReadDeadline(time.Now().Add(300 * time.Millisecond))
	if _, err := other.Read(make([]byte, 1)); !errors.Is(err, os.ErrDeadlineExceeded) {
		t.Errorf("the only connection of another client does not wait: %v", err)
	}
	if open, waiting := l.Use(); open != 1 || waiting != leastParked {
		t.Errorf("%d are open and %d wait", open, waiting)
	}
	busy.Close()
}

func TestConnectionsClose(t *testing.T) {
	l := NewConnections(listen(t), 1, 0, bySource)
	first, second := from(t, "127.0.0.1", l), from(t, "127.0.0.1", l)
	accepted, err := l.Accept()
	if err != nil {
		t.Fatal(err)
	}
	eventually(t, "the second waits", func() bool { _, waiting := l.Use(); return waiting == 1 })
	result := make(chan error, 1)
	go func() {
		_, err := l.Accept()
		result <- err
	}()
	if err := l.Close(); err != nil {
		t.Error(err)
	}
	if err := <-result; !errors.Is(err, net.ErrClosed) {
		t.Errorf("Accept: %v", err)
	}
	second.SetReadDeadline(time.Now().Add(5 * time.Second))
	if _, err := second.Read(make([]byte, 1)); errors.Is(err, os.ErrDeadlineExceeded) {
		t.Error("a connection that waits stays open")
	}
	go accepted.Write([]byte("x"))
	if _, err := first.Read(make([]byte, 1)); err != nil {
		t.Errorf("an open connection was closed: %v", err)
	}
	accepted.Close()
}

func TestConnectionsFailedAccept(t *testing.T) {
	l := NewConnections(&failing{Listener: listen(t), failures: 2}, 1, 0, bySource)
	defer l.Close()
	for i := 0; i < 2; i++ {
		if _, err := l.Accept(); err != io.ErrUnexpectedEOF {
			t.Fatal(err)
		}
	}
	dial(t, l)
	if c := next(accepted(l), 5*time.Second); c == nil {
		t.Error("no connection after a failed Accept")
	}
}

func TestConnectionsRace(t *testing.T) {
	l, hold := shared(t, 4)
	close(hold)
	var wg sync.WaitGroup
	for i := 0; i < 40; i++ {
		wg.Add(1)
		go func(i int) {
			defer wg.Done()
			for j := 0; j < 5; j++ {
				dialer := net.Dialer{LocalAddr: &net.TCPAddr{IP: net.IPv4(127, 0, 0, byte(1+i%4))}}
				c, err := dialer.Dial("tcp", l.Addr().String())
				if err != nil {
					continue
				}
				served(c, "/", 5*time.Second)
				c.Close()
			}
		}(i)
	}
	wg.Wait()
	eventually(t, "nothing is open", func() bool { open, waiting := l.Use(); return open == 0 && waiting == 0 })
	l.mu.Lock()
	defer l.mu.Unlock()
	if len(l.peers) != 0 {
		t.Errorf("%d clients are kept", len(l.peers))
	}
}

// With TLS, too, a connection is known by which a request comes.
func TestConnectionsWithTLS(t *testing.T) {
	for _, isBusy := range []bool{false, true} {
		t.Run(fmt.Sprintf("busy: %v", isBusy), func(t *testing.T) {
			hold, entered := make(chan struct{}), make(chan struct{}, 10)
			server := httptest.NewUnstartedServer(nil)
			l := NewConnections(server.Listener, 2, time.Minute, bySource)
			server.Listener = l
			server.Config.ConnContext = ConnContext
			server.Config.Handler = l.Handler(http.HandlerFunc(func(w http.ResponseWriter, r *http.Request) {
				entered <- struct{}{}
				if r.URL.Path == "/slow" {
					<-hold
				}
			}))
			server.StartTLS()
			defer server.Close()
			defer close(hold)
			path := "/"
			if isBusy {
				path = "/slow"
			}
			for i := 0; i < 2; i++ {
				c := tls.Client(from(t, "127.0.0.1", l), &tls.Config{InsecureSkipVerify: true})
				fmt.Fprintf(c, "GET %s HTTP/1.1\r\nHost: h\r\n\r\n", path)
				<-entered
			}
			within := 3 * time.Second
			if isBusy {
				within = 500 * time.Millisecond
			}
			late := tls.Client(from(t, "127.0.0.2", l), &tls.Config{InsecureSkipVerify: true})
			if served(late, "/", within) == isBusy {
				t.Errorf("another client is served: %v", !isBusy)
			}
		})
	}
}
