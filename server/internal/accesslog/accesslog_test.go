package accesslog

import (
	"bufio"
	"bytes"
	"context"
	"errors"
	"fmt"
	"io"
	"log"
	"net"
	"net/http"
	"net/http/httptest"
	"net/url"
	"regexp"
	"strings"
	"sync"
	"testing"
	"time"
)

// A buffer may be written and read by several goroutines.
type buffer struct {
	mu sync.Mutex
	b  bytes.Buffer
}

func (b *buffer) Write(p []byte) (int, error) {
	b.mu.Lock()
	defer b.mu.Unlock()
	return b.b.Write(p)
}

func (b *buffer) String() string {
	b.mu.Lock()
	defer b.mu.Unlock()
	return b.b.String()
}

var durations = regexp.MustCompile(` [0-9.]+(ns|µs|ms|s)( aborted)?\n`)

// serve returns what one request logs, with D for its duration, its response, and the value that it panics with.
func serve(h http.HandlerFunc, r *http.Request) (logged string, w *httptest.ResponseRecorder, panicked any) {
	var b buffer
	w = httptest.NewRecorder()
	func() {
		defer func() { panicked = recover() }()
		New(log.New(&b, "", 0), h).ServeHTTP(w, r)
	}()
	return durations.ReplaceAllString(b.String(), " D$2\n"), w, panicked
}

func TestLine(t *testing.T) {
	tests := []struct {
		name    string
		request func() *http.Request
		handler http.HandlerFunc
		want    string
	}{
		{
			"nothing written", get("/"),
			func(w http.ResponseWriter, r *http.Request) {},
			`192.0.2.1:1234 - GET "/" 200 0 D`,
		}, {
			"status", get("/a"),
			func(w http.ResponseWriter, r *http.Request) { w.WriteHeader(404) },
			`192.0.2.1:1234 - GET "/a" 404 0 D`,
		}, {
			"body", get("/a"),
			func(w http.ResponseWriter, r *http.Request) {
				io.WriteString(w, "hello")
				w.Write([]byte(", world"))
			},
			`192.0.2.1:1234 - GET "/a" 200 12 D`,
		}, {
			"the first status counts", get("/a"),
			func(w http.ResponseWriter, r *http.Request) {
				w.WriteHeader(201)
				w.WriteHeader(500)
			},
			`192.0.2.1:1234 - GET "/a" 201 0 D`,
		}, {
			"informational status", get("/a"),
			func(w http.ResponseWriter, r *http.Request) {
				w.WriteHeader(102)
				w.WriteHeader(207)
			},
			`192.0.2.1:1234 - GET "/a" 207 0 D`,
		}, {
			"flush", get("/a"),
			func(w http.ResponseWriter, r *http.Request) {
				w.(http.Flusher).Flush()
				w.WriteHeader(500)
			},
			`192.0.2.1:1234 - GET "/a" 200 0 D`,
		}, {
			"copied body", get("/a"),
			func(w http.ResponseWriter, r *http.Request) { io.CopyN(w, strings.NewReader("0123456789"), 7) },
			`192.0.2.1:1234 - GET "/a" 200 7 D`,
		}, {
			"user", get("/a"),
			func(w http.ResponseWriter, r *http.Request) { SetUser(r.Context(), "alice") },
			`192.0.2.1:1234 "alice" GET "/a" 200 0 D`,
		}, {
			"user in a context below", get("/a"),
			func(w http.ResponseWriter, r *http.Request) {
				SetUser(context.WithValue(r.Context(), struct{}{}, 1), "bob \"x\"\n\u00fc")
			},
			`192.0.2.1:1234 "bob \"x\"\n\u00fc" GET "/a" 200 0 D`,
		}, {
			"a user named -", get("/a"),
			func(w http.ResponseWriter, r *http.Request) { SetUser(r.Context(), "-") },
			`192.0.2.1:1234 "-" GET "/a" 200 0 D`,
		}, {
			"escaped path", get("/a%20b%0Ac%22?token=secret"),
			func(w http.ResponseWriter, r *http.Request) {},
			`192.0.2.1:1234 - GET "/a%20b%0Ac%22" 200 0 D`,
		}, {
			"strange path", changed(func(r *http.Request) {
				r.URL = &url.URL{Path: "/a\n\" 200\u2028", RawPath: "/a%0A%22%20200\u2028"}
			}),
			func(w http.ResponseWriter, r *http.Request) {},
			`192.0.2.1:1234 - GET "/a%0A%22%20200%E2%80%A8" 200 0 D`,
		}, {
			"asterisk", changed(func(r *http.Request) {
				r.Method = "OPTIONS"
				r.URL = &url.URL{Path: "*"}
			}),
			func(w http.ResponseWriter, r *http.Request) {},
			`192.0.2.1:1234 - OPTIONS "*" 200 0 D`,
		}, {
			"strange method", changed(func(r *http.Request) { r.Method = "GET \"/\" 200\n" }),
			func(w http.ResponseWriter, r *http.Request) { w.WriteHeader(405) },
			`192.0.2.1:1234 - "GET \"/\" 200\n" "/" 405 0 D`,
		}, {
			"request changed below", get("/a"),
			func(w http.ResponseWriter, r *http.Request) {
				r.Method = "PUT"
				r.URL.Path = "/b"
			},
			`192.0.2.1:1234 - GET "/a" 200 0 D`,
		},
	}
	for _, test := range tests {
		t.Run(test.name, func(t *testing.T) {
			got, _, panicked := serve(test.handler, test.request())
			if got != test.want+"\n" || panicked != nil {
				t.Errorf("got  %s\nwant %s\n%v", got, test.want, panicked)
			}
		})
	}
}

func get(target string) func() *http.Request {
	return func() *http.Request { return httptest.NewRequest("GET", target, nil) }
}

func changed(change func(r *http.Request)) func() *http.Request {
	return func() *http.Request {
		r := httptest.NewRequest("GET", "/", nil)
		change(r)
		return r
	}
}

func TestLongPath(t *testing.T) {
	got, _, _ := serve(func(w http.ResponseWriter, r *http.Request) {}, get("/"+strings.Repeat("a", 1<<20))())
	if got != `192.0.2.1:1234 - GET "/`+strings.Repeat("a", maxQuoted-1)+`"... 200 0 D`+"\n" {
		t.Errorf("a line of %d bytes", len(got))
	}
}

func TestSetUserAlone(t *testing.T) {
	SetUser(context.Background(), "alice") // does nothing
}

func TestAborted(t *testing.T) {
	tests := []struct {
		name    string
		handler http.HandlerFunc
		want    string
	}{
		{
			"before the response",
			func(w http.ResponseWriter, r *http.Request) { panic(http.ErrAbortHandler) },
			`192.0.2.1:1234 - GET "/" - 0 D aborted`,
		}, {
			"after a part",
			func(w http.ResponseWriter, r *http.Request) {
				SetUser(r.Context(), "alice")
				io.WriteString(w, "half")
				panic(http.ErrAbortHandler)
			},
			`192.0.2.1:1234 "alice" GET "/" 200 4 D aborted`,
		},
	}
	for _, test := range tests {
		t.Run(test.name, func(t *testing.T) {
			got, _, panicked := serve(test.handler, get("/")())
			if got != test.want+"\n" || panicked != http.ErrAbortHandler {
				t.Errorf("got  %s\nwant %s\n%v", got, test.want, panicked)
			}
		})
	}
}

func TestPanic(t *testing.T) {
	got, w, panicked := serve(func(w http.ResponseWriter, r *http.Request) {
		w.Header().Set("Content-Length", "5000")
		w.Header().Set("ETag", `"1"`)
		panic(fmt.Errorf("index\n192.0.2.9:1 - GET \"/\" 200"))
	}, get("/")())
	if panicked != nil {
		t.Errorf("panicked with %v", panicked)
	}
	if w.Code != 500 || w.Header().Get("ETag") != "" || w.Header().Get("Content-Length") != "" {
		t.Errorf("status %d, header %v", w.Code, w.Header())
	}
	lines := strings.Split(strings.TrimSuffix(got, "\n"), "\n")
	if lines[0] != `panic: "index\n192.0.2.9:1 - GET \"/\" 200"` {
		t.Errorf("first line %s", lines[0])
	}
	if !strings.Contains(got, "accesslog.TestPanic") {
		t.Errorf("no stack: %s", got)
	}
	want := fmt.Sprintf(`192.0.2.1:1234 - GET "/" 500 %d D`, w.Body.Len())
	if lines[len(lines)-1] != want {
		t.Errorf("last line %s, want %s", lines[len(lines)-1], want)
	}
}

func TestPanicAfterPart(t *testing.T) {
	got, w, panicked := serve(func(w http.ResponseWriter, r *http.Request) {
		io.WriteString(w, "half")
		var m map[string]int
		m["x"] = 1
	}, get("/")())
	if panicked != http.ErrAbortHandler {
		t.Errorf("panicked with %v", panicked)
	}
	if w.Body.String() != "half" {
		t.Errorf("body %q", w.Body)
	}
	if !strings.HasPrefix(got, `panic: "assignment to entry in nil map"`) ||
		!strings.HasSuffix(got, "\n192.0.2.1:1234 - GET \"/\" 200 4 D aborted\n") {
		t.Errorf("logged %s", got)
	}
}

// A plain response writer has neither Flush nor ReadFrom.
type plain struct {
	header http.Header
	b      bytes.Buffer
}

func (p *plain) Header() http.Header         { return p.header }
func (p *plain) Write(b []byte) (int, error) { return p.b.Write(b) }
func (p *plain) WriteHeader(int)             {}

func TestPlainWriter(t *testing.T) {
	p := &plain{header: make(http.Header)}
	h := New(log.New(io.Discard, "", 0), http.HandlerFunc(func(w http.ResponseWriter, r *http.Request) {
		w.(http.Flusher).Flush()
		if n, err := w.(io.ReaderFrom).ReadFrom(strings.NewReader("abc")); n != 3 || err != nil {
			t.Errorf("ReadFrom: %d, %v", n, err)
		}
	}))
	h.ServeHTTP(p, get("/")())
	if p.b.String() != "abc" {
		t.Errorf("body %q", p.b.String())
	}
}

// A full response writer fails after some bytes.
type full struct{ plain }

func (f *full) Write(b []byte) (int, error) { return 2, errors.New("full") }

func TestFailedWrite(t *testing.T) {
	var b buffer
	h := New(log.New(&b, "", 0), http.HandlerFunc(func(w http.ResponseWriter, r *http.Request) {
		if n, err := io.WriteString(w, "abc"); n != 2 || err == nil {
			t.Errorf("WriteString: %d, %v", n, err)
		}
	}))
	h.ServeHTTP(&full{plain{header: make(http.Header)}}, get("/")())
	if got := b.String(); !strings.Contains(got, " 200 2 ") {
		t.Errorf("logged %s", got)
	}
}

// start starts a server that logs to the buffer.
func start(t *testing.T, h2 bool, h http.HandlerFunc) (*httptest.Server, *buffer) {
	t.Helper()
	var b buffer
	server := httptest.NewUnstartedServer(New(log.New(&b, "", 0), h))
	server.Config.ErrorLog = log.New(&b, "server: ", 0)
	server.EnableHTTP2 = h2
	if h2 {
		server.StartTLS()
	} else {
		server.Start()
	}
	t.Cleanup(server.Close)
	return server, &b
}

func TestServeContent(t *testing.T) {
	for _, h2 := range []bool{false, true} {
		content := strings.Repeat("0123456789", 100000)
		server, b := start(t, h2, func(w http.ResponseWriter, r *http.Request) {
			http.ServeContent(w, r, "a.txt", time.Time{}, strings.NewReader(content))
		})
		r, err := http.NewRequest("GET", server.URL+"/a.txt", nil)
		if err != nil {
			t.Fatal(err)
		}
		r.Header.Set("Range", "bytes=5-600004")
		response, err := server.Client().Do(r)
		if err != nil {
			t.Fatal(err)
		}
		body, err := io.ReadAll(response.Body)
		response.Body.Close()
		if err != nil || string(body) != content[5:600005] {
			t.Errorf("%d bytes, %v", len(body), err)
		}
		server.Close()
		if got := b.String(); !strings.Contains(got, ` - GET "/a.txt" 206 600000 `) {
			t.Errorf("logged %s", got)
		}
	}
}

// Flush sends a part of the response before the handler returns.
func TestFlush(t *testing.T) {
	for _, h2 := range []bool{false, true} {
		read := make(chan struct{})
		server, _ := start(t, h2, func(w http.ResponseWriter, r *http.Request) {
			io.WriteString(w, "first\n")
			w.(http.Flusher).Flush()
			select {
			case <-read:
			case <-time.After(10 * time.Second):
				t.Error("the first part did not arrive")
			}
		})
		response, err := server.Client().Get(server.URL)
		if err != nil {
			t.Fatal(err)
		}
		if line, err := bufio.NewReader(response.Body).ReadString('\n'); line != "first\n" {
			t.Errorf("%q, %v", line, err)
		}
		close(read)
		response.Body.Close()
	}
}

// A client does not take a response that was cut off for a whole one, and the server does not log the panic again.
func TestAbortedResponse(t *testing.T) {
	server, b := start(t, false, func(w http.ResponseWriter, r *http.Request) {
		io.WriteString(w, "half")
		w.(http.Flusher).Flush()
		panic("broken")
	})
	response, err := server.Client().Get(server.URL)
	if err != nil {
		t.Fatal(err)
	}
	defer response.Body.Close()
	if body, err := io.ReadAll(response.Body); string(body) != "half" || err == nil {
		t.Errorf("%q, %v", body, err)
	}
	server.Close()
	if got := b.String(); strings.Count(got, "panic: ") != 1 || strings.Contains(got, "server: ") {
		t.Errorf("logged %s", got)
	}
}

// A client sends bytes that would break a line if they were logged as they are.
func TestInjection(t *testing.T) {
	server, b := start(t, false, func(w http.ResponseWriter, r *http.Request) {})
	c, err := net.Dial("tcp", server.Listener.Addr().String())
	if err != nil {
		t.Fatal(err)
	}
	defer c.Close()
	c.SetDeadline(time.Now().Add(10 * time.Second))
	fmt.Fprintf(c, "G'E|T /\x85\xe2\x80\xa8\"x HTTP/1.1\r\nHost: h\r\nConnection: close\r\n\r\n")
	if _, err := io.ReadAll(c); err != nil {
		t.Fatal(err)
	}
	server.Close()
	got := b.String()
	if !regexp.MustCompile(`^127\.0\.0\.1:\d+ - "G'E\|T" "/[ -~]*x" 200 0 [0-9.a-zµ]+\n$`).MatchString(got) {
		t.Errorf("logged %q", got)
	}
}

func TestObserversSeeEachRequest(t *testing.T) {
	tests := []struct {
		name    string
		handler http.HandlerFunc
		want    Request
	}{
		{"a status", func(w http.ResponseWriter, r *http.Request) { w.WriteHeader(404) }, Request{Method: "GET", Status: 404}},
		{"nothing", func(w http.ResponseWriter, r *http.Request) {}, Request{Method: "GET", Status: 200}},
		{"a panic", func(w http.ResponseWriter, r *http.Request) { panic("p") }, Request{Method: "GET", Status: 500}},
		{
			"no response", func(w http.ResponseWriter, r *http.Request) { panic(http.ErrAbortHandler) },
			Request{Method: "GET", Aborted: true},
		}, {
			"a broken response", func(w http.ResponseWriter, r *http.Request) {
				io.WriteString(w, "x")
				panic(http.ErrAbortHandler)
			},
			Request{Method: "GET", Status: 200, Aborted: true},
		},
	}
	for _, test := range tests {
		var seen []Request
		observe := func(r Request) { seen = append(seen, r) }
		slow := func(w http.ResponseWriter, r *http.Request) {
			time.Sleep(time.Millisecond)
			test.handler(w, r)
		}
		func() {
			defer func() { _ = recover() }()
			New(log.New(io.Discard, "", 0), http.HandlerFunc(slow), observe, observe).
				ServeHTTP(httptest.NewRecorder(), httptest.NewRequest("GET", "/", nil))
		}()
		if len(seen) != 2 || seen[0] != seen[1] || seen[0].Duration < time.Millisecond {
			t.Errorf("%s: %+v", test.name, seen)
			continue
		}
		seen[0].Duration = 0
		if seen[0] != test.want {
			t.Errorf("%s: %+v, want %+v", test.name, seen[0], test.want)
		}
	}
}
