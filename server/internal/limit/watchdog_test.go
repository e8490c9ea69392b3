package limit

import (
	"bytes"
	"context"
	"crypto/tls"
	"io"
	"net"
	"net/http"
	"net/http/httptest"
	"sync"
	"testing"
	"time"

	"davserve/internal/netconn"
)

// pair returns both ends of a TCP connection.
func pair(t *testing.T) (client, server net.Conn) {
	t.Helper()
	l := listen(t)
	client = dial(t, l)
	server, err := l.Accept()
	if err != nil {
		t.Fatal(err)
	}
	t.Cleanup(func() { server.Close() })
	return client, server
}

// closedWithin reports whether the peer of the connection closes it in time.
func closedWithin(t *testing.T, c net.Conn, d time.Duration) bool {
	t.Helper()
	if err := c.SetReadDeadline(time.Now().Add(d)); err != nil {
		t.Fatal(err)
	}
	_, err := c.Read(make([]byte, 1))
	if err == nil {
		t.Fatal("the connection has a byte")
	}
	timeout, ok := err.(net.Error)
	return !ok || !timeout.Timeout()
}

func TestWatch(t *testing.T) {
	const stall = 200 * time.Millisecond
	tests := []struct {
		name   string
		use    func(w *Watchdog)
		closed bool
	}{
		{"nothing comes", func(w *Watchdog) { w.Begin() }, true},
		{"the server does not wait", func(w *Watchdog) {}, false},
		{"the server does not wait any more", func(w *Watchdog) { w.Begin(); w.End(0) }, false},
		{"two ends", func(w *Watchdog) { w.Begin(); w.End(1); w.End(1) }, false},
		{"an end before", func(w *Watchdog) { w.End(1) }, false},
		{"nothing more comes", func(w *Watchdog) { w.Begin(); w.End(1000); w.Begin() }, true},
	}
	for _, test := range tests {
		test := test
		t.Run(test.name, func(t *testing.T) {
			t.Parallel()
			client, server := pair(t)
			w := Watch(ConnContext(context.Background(), server), Pace{Stall: stall})
			defer w.End(0)
			test.use(w)
			within := 10 * time.Second
			if !test.closed {
				within = 3 * stall
			}
			if closedWithin(t, client, within) != test.closed {
				t.Errorf("closed: %v", !test.closed)
			}
		})
	}
}

// Each step takes so long, and so many bytes come in it.
func TestWatchPace(t *testing.T) {
	const stall, step = 400 * time.Millisecond, 40 * time.Millisecond
	tests := []struct {
		name   string
		least  int64
		bytes  int // of each step
		steps  int
		closed bool
	}{
		{"single bytes, and any do", 0, 1, 30, false},
		{"single bytes", 1000, 1, 30, true},
		{"bytes at the pace", 1000, 100, 30, false},
		{"many bytes once are no more than the time", 1000, 1 << 30, 1, false},
	}
	for _, test := range tests {
		test := test
		t.Run(test.name, func(t *testing.T) {
			t.Parallel()
			client, server := pair(t)
			w := Watch(ConnContext(context.Background(), server), Pace{Stall: stall, Least: test.least})
			for i := 0; i < test.steps; i++ {
				w.Begin()
				time.Sleep(step)
				w.End(test.bytes)
			}
			if closedWithin(t, client, time.Millisecond) != test.closed {
				t.Fatalf("closed: %v", !test.closed)
			}
			if test.closed {
				return
			}
			start := time.Now()
			w.Begin()
			if !closedWithin(t, client, 10*time.Second) {
				t.Fatal("not closed when nothing more comes")
			}
			if d := time.Since(start); d > 3*stall {
				t.Errorf("closed after %v", d)
			}
		})
	}
}

func TestWatchNothing(t *testing.T) {
	_, server := pair(t)
	for _, w := range []*Watchdog{
		Watch(context.Background(), Pace{Stall: time.Nanosecond}),
		Watch(ConnContext(context.Background(), nil), Pace{Stall: time.Nanosecond}),
		Watch(ConnContext(context.Background(), server), Pace{}),
		Watch(ConnContext(context.Background(), server), Pace{Stall: -1, Least: 1}),
	} {
		w.Begin()
		if w.timer != nil {
			t.Error("a watchdog has nothing to watch and a timer")
		}
		w.End(1)
	}
}

// Many goroutines use a watchdog while it fires. The race detector looks on.
func TestWatchRace(t *testing.T) {
	for i := 0; i < 50; i++ {
		_, server := pair(t)
		w := Watch(ConnContext(context.Background(), server), Pace{Stall: time.Millisecond, Least: 1000})
		var wg sync.WaitGroup
		for j := 0; j < 4; j++ {
			wg.Add(1)
			go func() {
				defer wg.Done()
				for start := time.Now(); time.Since(start) < 2*time.Millisecond; {
					w.Begin()
					w.End(1)
				}
			}()
		}
		wg.Wait()
	}
}

// Abort reaches the TCP connection below wrappers.
func TestAbort(t *testing.T) {
	client, server := pair(t)
	slots := make(chan struct{}, 1)
	slots <- struct{}{}
	wrapped := &conn{Wrapper: netconn.Wrapper{Conn: server}, slots: slots}
	if _, err := server.Write(bytes.Repeat([]byte("x"), 1000)); err != nil {
		t.Fatal(err)
	}
	Abort(wrapped)
	if len(slots) != 0 {
		t.Error("the connection kept its place")
	}
	// A reset drops what the client has not read yet. An orderly end would deliver it.
	time.Sleep(50 * time.Millisecond)
	if n, err := io.Copy(io.Discard, client); err == nil {
		t.Errorf("the client read %d bytes and an orderly end", n)
	}
}

// stall is a handler that watches its client, and reports how it ended.
type stall struct {
	most  time.Duration
	ended chan error
	isH2  bool // of the request that ended
}

func (s *stall) ServeHTTP(w http.ResponseWriter, r *http.Request) {
	dog := Watch(r.Context(), Pace{Stall: s.most})
	buffer := make([]byte, 32<<10)
	for {
		var n int
		var err error
		dog.Begin()
		if r.Method == "PUT" {
			n, err = r.Body.Read(buffer)
		} else {
			n, err = w.Write(buffer)
		}
		dog.End(n)
		if err != nil {
			s.isH2 = r.ProtoMajor == 2
			s.ended <- err
			return
		}
	}
}

func TestWatchHTTP(t *testing.T) {
	tests := []struct {
		name, method string
		tls, h2      bool
	}{
		{"upload", "PUT", false, false},
		{"download", "GET", false, false},
		{"upload with TLS", "PUT", true, false},
		{"download with TLS", "GET", true, false},
		{"upload with HTTP/2", "PUT", true, true},
		{"download with HTTP/2", "GET", true, true},
	}
	for _, test := range tests {
		test := test
		t.Run(test.name, func(t *testing.T) {
			t.Parallel()
			const most = 300 * time.Millisecond
			h := &stall{most: most, ended: make(chan error, 1)}
			server := serve(t, h, test.tls, test.h2)
			start := time.Now()
			end := request(t, server, test.method)
			select {
			case err := <-h.ended:
				if err == io.EOF {
					t.Error("the body ended in order")
				}
				if d := time.Since(start); d < most {
					t.Errorf("the handler ended after %v", d)
				}
				if h.isH2 != test.h2 {
					t.Errorf("HTTP/2: %v", h.isH2)
				}
			case <-time.After(20 * time.Second):
				t.Error("the handler did not end")
			}
			end()
		})
	}
}

// serve starts a server whose connections are limited and known to Watch.
func serve(t *testing.T, h http.Handler, tls, h2 bool) *httptest.Server {
	server := httptest.NewUnstartedServer(h)
	server.Listener = Listener(server.Listener, 1, 0)
	server.Config.ConnContext = ConnContext
	server.EnableHTTP2 = h2
	if tls {
		server.StartTLS()
	} else {
		server.Start()
	}
	t.Cleanup(server.Close)
	return server
}

// request sends half a body and then nothing, or reads nothing of a response, until end is called.
func request(t *testing.T, server *httptest.Server, method string) (end func()) {
	t.Helper()
	body, half := io.Pipe()
	r, err := http.NewRequest(method, server.URL, nil)
	if err != nil {
		t.Fatal(err)
	}
	if method == "PUT" {
		r.Body = body
		go half.Write([]byte("half"))
	}
	stop, done := make(chan struct{}), make(chan struct{})
	go func() {
		defer close(done)
		response, err := server.Client().Do(r)
		if err == nil {
			<-stop
			response.Body.Close()
		}
	}()
	return func() {
		half.CloseWithError(io.ErrUnexpectedEOF)
		close(stop)
		<-done
	}
}

// Abort does not wait until a client takes the alert that TLS sends at the end.
func TestAbortTLS(t *testing.T) {
	client, accepted := pair(t)
	slots := make(chan struct{}, 1)
	slots <- struct{}{}
	below := &conn{Wrapper: netconn.Wrapper{Conn: accepted}, stall: time.Minute, slots: slots}
	certificates := httptest.NewUnstartedServer(nil)
	certificates.StartTLS()
	defer certificates.Close()
	server := tls.Server(below, certificates.TLS)
	shaken := make(chan error, 1)
	go func() { shaken <- tls.Client(client, &tls.Config{InsecureSkipVerify: true}).Handshake() }()
	if err := server.Handshake(); err != nil {
		t.Fatal(err)
	}
	if err := <-shaken; err != nil {
		t.Fatal(err)
	}
	fill(t, accepted)
	done := make(chan struct{})
	go func() {
		defer close(done)
		Abort(server)
	}()
	select {
	case <-done:
	case <-time.After(3 * time.Second):
		t.Error("Abort waits")
		accepted.Close()
		<-done
	}
	if len(slots) != 0 {
		t.Error("the connection kept its place")
	}
}

// fill writes until the client would have to read, to the last byte: a small write may fit where a large one does not.
func fill(t *testing.T, c net.Conn) {
	t.Helper()
	for size := 1 << 20; size > 0; size /= 32 {
		for {
			if err := c.SetWriteDeadline(time.Now().Add(200 * time.Millisecond)); err != nil {
				t.Fatal(err)
			}
			if _, err := c.Write(make([]byte, size)); err != nil {
				break
			}
		}
	}
	if err := c.SetWriteDeadline(time.Time{}); err != nil {
		t.Fatal(err)
	}
}
