package davserve

import (
	"bytes"
	"context"
	"fmt"
	"io"
	"log"
	"net"
	"net/http"
	"net/http/httptest"
	"os"
	"strings"
	"sync"
	"testing"
	"time"
)

// davdForTests returns the program davd, which the gate builds. DAVD names another one.
func davdForTests(t *testing.T) string {
	t.Helper()
	program := os.Getenv("DAVD")
	if program == "" {
		program = "../crates/davd/out/davd"
	}
	if _, err := os.Stat(program); err != nil {
		t.Skipf("no davd: %v", err)
	}
	return program
}

// A client of a server that a test started.
type client struct {
	t      *testing.T
	server *httptest.Server
}

func startServer(t *testing.T, options Options) client {
	t.Helper()
	options.Davd = davdForTests(t)
	options.Log = log.New(io.Discard, "", 0)
	handler, err := New(context.Background(), options)
	if err != nil {
		t.Fatal(err)
	}
	server := httptest.NewUnstartedServer(handler)
	server.Config.ConnContext = ConnContext
	server.Config.ErrorLog = options.Log
	server.Start()
	t.Cleanup(func() {
		server.Close()
		ctx, cancel := context.WithTimeout(context.Background(), 5*time.Second)
		defer cancel()
		if err := handler.Close(ctx); err != nil {
			t.Errorf("Close: %v", err)
		}
	})
	return client{t, server}
}

// do sends a request with header fields as "Name: value", and returns the response and its body.
func (c client) do(method, path string, body io.Reader, fields ...string) (*http.Response, string) {
	c.t.Helper()
	r, err := http.NewRequest(method, c.server.URL+path, body)
	if err != nil {
		c.t.Fatal(err)
	}
	for _, field := range fields {
		name, value, _ := strings.Cut(field, ": ")
		r.Header.Set(name, value)
	}
	response, err := c.server.Client().Do(r)
	if err != nil {
		c.t.Fatalf("%s %s: %v", method, path, err)
	}
	defer response.Body.Close()
	text, err := io.ReadAll(response.Body)
	if err != nil {
		c.t.Fatalf("%s %s: %v", method, path, err)
	}
	return response, string(text)
}

// want sends a request and compares the status.
func (c client) want(status int, method, path, body string, fields ...string) string {
	c.t.Helper()
	var reader io.Reader
	if body != "" {
		reader = strings.NewReader(body)
	}
	response, text := c.do(method, path, reader, fields...)
	if response.StatusCode != status {
		c.t.Errorf("%s %s: status %d, want %d: %s", method, path, response.StatusCode, status, text)
	}
	return text
}

func TestEachRuleHasItsStatus(t *testing.T) {
	c := startServer(t, Options{MaxBody: 1000, MaxXML: 500})
	c.want(201, "MKCOL", "/d/", "")
	c.want(201, "PUT", "/d/f", "hello")
	tests := []struct {
		name, method, path, body string
		fields                   []string
		status                   int
	}{
		{"GET", "GET", "/d/f", "", nil, 200},
		{"GET of nothing", "GET", "/none", "", nil, 404},
		{"GET of a file with a slash", "GET", "/d/f/", "", nil, 404},
		{"GET of a collection", "GET", "/d/", "", nil, 200},
		{"range", "GET", "/d/f", "", []string{"Range: bytes=1-2"}, 206},
		{"range after the end", "GET", "/d/f", "", []string{"Range: bytes=9-"}, 416},
		{"POST", "POST", "/d/f", "x", nil, 405},
		{"unknown method", "BREW", "/d/f", "", nil, 501},
		{"MKCOL with a body", "MKCOL", "/e/", "x", nil, 415},
		{"DELETE with a body", "DELETE", "/none", "x", nil, 415},
		{"PUT to a path with a slash", "PUT", "/new/", "x", nil, 405},
		{"PUT with a digest that is none", "PUT", "/d/f", "abc", []string{"Content-MD5: abc"}, 400},
		{"PUT without a parent", "PUT", "/no/f", "x", nil, 409},
		{"long body", "PUT", "/long", strings.Repeat("x", 1001), nil, 413},
		{"far offset", "PATCH", "/d/f", "x", []string{"Content-Type: application/x-sabredav-partialupdate", "X-Update-Range: bytes=1001-"}, 413},
		{"long XML", "PROPFIND", "/d/", "<a>" + strings.Repeat("x", 500) + "</a>", []string{"Depth: 0"}, 413},
		{"malformed XML", "PROPFIND", "/d/", "<a>", []string{"Depth: 0"}, 400},
		{"document type", "PROPFIND", "/d/", "<!DOCTYPE a><a/>", []string{"Depth: 0"}, 400},
		{"Depth infinity", "PROPFIND", "/d/", "", nil, 403},
		{"Depth infinity of a file", "PROPFIND", "/d/f", "", nil, 207},
		{"Depth infinity by X-Litmus", "PROPFIND", "/d/", "", []string{"X-Litmus: x"}, 403},
		{"Destination elsewhere", "COPY", "/d/f", "", []string{"Destination: http://other/g"}, 502},
		{"unlock nothing", "UNLOCK", "/d/f", "", []string{"Lock-Token: <urn:none>"}, 409},
	}
	for _, test := range tests {
		t.Run(test.name, func(t *testing.T) {
			client{t, c.server}.want(test.status, test.method, test.path, test.body, test.fields...)
		})
	}
	if got := c.want(200, "GET", "/d/f", ""); got != "hello" {
		t.Errorf("the file is now %q", got)
	}
}

func TestALargeBodyGoesInPieces(t *testing.T) {
	c := startServer(t, Options{})
	large := bytes.Repeat([]byte("0123456789abcdef"), 3*piece/16+1)
	for _, body := range []io.Reader{bytes.NewReader(large), io.MultiReader(bytes.NewReader(large))} {
		c.do("PUT", "/f", body)
		response, got := c.do("GET", "/f", nil)
		if response.StatusCode != 200 || got != string(large) {
			t.Fatalf("status %d and %d bytes, want %d", response.StatusCode, len(got), len(large))
		}
	}
	_, got := c.do("GET", "/f", nil, fmt.Sprintf("Range: bytes=%d-%d", piece-3, piece+2))
	if want := string(large[piece-3 : piece+3]); got != want {
		t.Errorf("a range over two pieces is %q, want %q", got, want)
	}
}

func TestABodyThatBreaksOffChangesNothing(t *testing.T) {
	c := startServer(t, Options{})
	c.want(201, "PUT", "/f", "old")
	most := strings.Repeat("x", 2*piece)
	heads := map[string]string{
		"short, by length": "Content-Length: 10\r\n\r\nshort",
		"long, by length":  fmt.Sprintf("Content-Length: %d\r\n\r\n%s", 3*piece, most),
		"short, chunked":   "Transfer-Encoding: chunked\r\n\r\n5\r\nshort\r\n",
		"long, chunked":    fmt.Sprintf("Transfer-Encoding: chunked\r\n\r\n%x\r\n%s\r\n", len(most), most),
		"expected longer":  "Transfer-Encoding: chunked\r\nX-Expected-Entity-Length: 6\r\n\r\n5\r\nshort\r\n0\r\n\r\n",
	}
	for name, rest := range heads {
		t.Run(name, func(t *testing.T) {
			connection, err := net.Dial("tcp", c.server.Listener.Addr().String())
			if err != nil {
				t.Fatal(err)
			}
			fmt.Fprintf(connection, "PUT /f HTTP/1.1\r\nHost: h\r\n%s", rest)
			connection.(*net.TCPConn).CloseWrite()
			connection.SetReadDeadline(time.Now().Add(5 * time.Second))
			answer, _ := io.ReadAll(connection)
			connection.Close()
			if strings.HasPrefix(string(answer), "HTTP/1.1 2") {
				t.Errorf("the answer is %q", answer)
			}
			if got := (client{t, c.server}).want(200, "GET", "/f", ""); got != "old" {
				t.Errorf("the file has %d bytes now", len(got))
			}
		})
	}
}

func TestAFileThatChangesBreaksTheDownloadOff(t *testing.T) {
	c := startServer(t, Options{})
	large := strings.Repeat("a", 40<<20)
	c.want(201, "PUT", "/f", large)
	response, err := c.server.Client().Get(c.server.URL + "/f")
	if err != nil {
		t.Fatal(err)
	}
	defer response.Body.Close()
	c.want(204, "PUT", "/f", strings.Repeat("b", 40<<20))
	got, err := io.ReadAll(response.Body)
	if err == nil || bytes.ContainsRune(got, 'b') {
		t.Errorf("%d bytes, error %v: want an error, and no byte of the new version", len(got), err)
	}
}

func TestInfinityWithinABound(t *testing.T) {
	c := startServer(t, Options{MaxInfinity: 4})
	c.want(201, "MKCOL", "/d/", "")
	c.want(201, "MKCOL", "/d/e/", "")
	c.want(201, "PUT", "/d/e/f", "x")
	text := c.want(207, "PROPFIND", "/", "", "Depth: infinity")
	for _, path := range []string{"/", "/d/", "/d/e/", "/d/e/f"} {
		if !strings.Contains(text, "<D:href>"+path+"</D:href>") {
			t.Errorf("the response lacks %s: %s", path, text)
		}
	}
	c.want(201, "PUT", "/d/e/g", "x")
	text = c.want(403, "PROPFIND", "/", "", "Depth: infinity")
	if !strings.Contains(text, "propfind-finite-depth") {
		t.Errorf("the error does not say why: %s", text)
	}
	c.want(207, "PROPFIND", "/d/", "", "Depth: infinity")
}

func TestQuotaOverHTTP(t *testing.T) {
	c := startServer(t, Options{Quota: 1000})
	full := strings.Repeat("x", 600)
	c.want(201, "PUT", "/f", full)
	c.want(507, "PUT", "/g", full)
	c.want(404, "GET", "/g", "")
	c.want(507, "COPY", "/f", "", "Destination: /g")
	c.want(204, "PUT", "/f", full+full[:300])
	text := c.want(207, "PROPFIND", "/", `<propfind xmlns="DAV:"><prop><quota-available-bytes/><quota-used-bytes/></prop></propfind>`, "Depth: 0")
	for _, want := range []string{"100</", "900</"} {
		if !strings.Contains(text, want) {
			t.Errorf("the quota lacks %s: %s", want, text)
		}
	}
	c.want(201, "MOVE", "/f", "", "Destination: /h")
	partial := "Content-Type: application/x-sabredav-partialupdate"
	c.want(507, "PATCH", "/h", full, partial, "X-Update-Range: append")
	c.want(204, "PATCH", "/h", full, partial, "X-Update-Range: bytes=0-599")
	c.want(204, "DELETE", "/h", "")
	c.want(201, "PUT", "/g", full)
	c.want(201, "MKCOL", "/d/", "")
	c.want(201, "MOVE", "/g", "", "Destination: /d/g")
	c.want(507, "COPY", "/d/", "", "Destination: /e/")
}

func TestUsersAndTheirLocks(t *testing.T) {
	c := startServer(t, Options{Principal: func(r *http.Request) (string, bool) {
		name, _, ok := r.BasicAuth()
		return name, ok
	}})
	const ann, bob = "Authorization: Basic YW5uOg==", "Authorization: Basic Ym9iOg=="
	c.want(201, "PUT", "/f", "x", ann)
	lock := `<lockinfo xmlns="DAV:"><lockscope><exclusive/></lockscope><locktype><write/></locktype></lockinfo>`
	response, text := c.do("LOCK", "/f", strings.NewReader(lock), ann)
	token := response.Header.Get("Lock-Token")
	if response.StatusCode != 200 || !strings.Contains(text, "Second-600") {
		t.Fatalf("LOCK: %d, %s", response.StatusCode, text)
	}
	c.want(423, "PUT", "/f", "y", bob)
	c.want(403, "UNLOCK", "/f", "", bob, "Lock-Token: "+token)
	c.want(403, "LOCK", "/f", "", bob, "If: ("+token+")")
	c.want(200, "LOCK", "/f", "", ann, "If: ("+token+")", "Timeout: Infinite")
	c.want(204, "PUT", "/f", "y", ann, "If: ("+token+")")
	c.want(204, "UNLOCK", "/f", "", ann, "Lock-Token: "+token)
	c.want(204, "PUT", "/f", "z", bob)
}

func TestManyClientsAtOnce(t *testing.T) {
	c := startServer(t, Options{})
	var group sync.WaitGroup
	for i := 0; i < 16; i++ {
		group.Add(1)
		go func(i int) {
			defer group.Done()
			path := fmt.Sprintf("/f%d", i)
			for k := 0; k < 30; k++ {
				body := strings.Repeat(string(rune('a'+i)), k*k*500)
				c.do("PUT", path, strings.NewReader(body))
				if _, got := c.do("GET", path, nil); got != body {
					t.Errorf("%s has %d bytes, want %d", path, len(got), len(body))
				}
			}
		}(i)
	}
	group.Wait()
}

func TestNewNamesWhatIsWrong(t *testing.T) {
	for _, options := range []Options{
		{},
		{Davd: "/no/such/davd"},
		{Davd: "/bin/true"},
		{Davd: "davd", Prefix: "dav"},
		{Davd: "davd", PublicURL: "ftp://h/"},
		{Davd: "davd", MaxBody: -1},
		{Davd: "davd", MaxLock: -1},
	} {
		options.Log = log.New(io.Discard, "", 0)
		if h, err := New(context.Background(), options); err == nil {
			t.Errorf("%+v is accepted", options)
			h.Close(context.Background())
		}
	}
}

func TestALongListHasNoContentLength(t *testing.T) {
	c := startServer(t, Options{})
	c.want(201, "MKCOL", "/d/", "")
	for i := 0; i < 400; i++ {
		c.want(201, "PUT", fmt.Sprintf("/d/%03d-%s", i, strings.Repeat("n", 100)), "")
	}
	response, text := c.do("PROPFIND", "/d/", nil, "Depth: 1")
	if response.ContentLength >= 0 || len(text) <= lengthKnown {
		t.Errorf("length %d of %d bytes", response.ContentLength, len(text))
	}
	if got := strings.Count(text, "<D:response>"); got != 401 || !strings.HasSuffix(text, "</D:multistatus>") {
		t.Errorf("%d responses, and the end %q", got, text[len(text)-20:])
	}
	response, text = c.do("PROPFIND", "/d/", nil, "Depth: 0")
	if response.ContentLength != int64(len(text)) {
		t.Errorf("length %d of %d bytes", response.ContentLength, len(text))
	}
}
