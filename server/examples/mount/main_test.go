package main

import (
	"context"
	"io"
	"net"
	"net/http"
	"os"
	"path/filepath"
	"strings"
	"testing"
)

// davdForTests returns the program davd, which the gate builds. DAVD names another one.
func davdForTests(t *testing.T) string {
	t.Helper()
	program := os.Getenv("DAVD")
	if program == "" {
		program = filepath.FromSlash("../../../crates/davd/out/davd")
	}
	if _, err := os.Stat(program); err != nil {
		t.Skipf("no davd: %v", err)
	}
	return program
}

// do sends a request and returns the response and its body. Without a user it sends no password either.
func do(t *testing.T, r *http.Request, user, password string) (*http.Response, string) {
	t.Helper()
	if user != "" {
		r.SetBasicAuth(user, password)
	}
	response, err := http.DefaultClient.Do(r)
	if err != nil {
		t.Fatal(err)
	}
	defer response.Body.Close()
	body, err := io.ReadAll(response.Body)
	if err != nil {
		t.Fatal(err)
	}
	return response, string(body)
}

func request(t *testing.T, method, url, body string) *http.Request {
	t.Helper()
	r, err := http.NewRequest(method, url, strings.NewReader(body))
	if err != nil {
		t.Fatal(err)
	}
	return r
}

// start serves until the test ends, and returns the URL. Then serve must end without an error.
func start(t *testing.T) string {
	t.Helper()
	program := davdForTests(t)
	listener, err := net.Listen("tcp", "127.0.0.1:0")
	if err != nil {
		t.Fatal(err)
	}
	ctx, cancel := context.WithCancel(context.Background())
	ended := make(chan error, 1)
	go func() { ended <- serve(ctx, listener, program) }()
	t.Cleanup(func() {
		cancel()
		if err := <-ended; err != nil {
			t.Errorf("it ends with %v", err)
		}
	})
	return "http://" + listener.Addr().String()
}

func TestUsersHaveFilesBesideThePage(t *testing.T) {
	server := start(t)
	for _, test := range []struct {
		method, path, user, password, body string
		status                             int
		has                                string // of the body of the response
	}{
		{"GET", "/", "", "", "", 200, "/dav/"},
		{"PUT", "/dav/a", "", "", "hello", 401, ""},
		{"PUT", "/dav/a", "ann", "wrong", "hello", 401, ""},
		{"PUT", "/dav/a", "ann", "", "hello", 401, ""},
		{"PUT", "/dav/a", "nobody", "", "hello", 401, ""},
		{"PUT", "/dav/a", "ann", "secret", "hello", 201, ""},
		{"GET", "/dav/a", "ben", "other", "", 200, "hello"},
		{"PUT", "/a", "", "", "hello", 200, "/dav/"}, // This is the page.
	} {
		response, body := do(t, request(t, test.method, server+test.path, test.body), test.user, test.password)
		if response.StatusCode != test.status || !strings.Contains(body, test.has) {
			t.Errorf("%s %s as %q: %d %q, want %d", test.method, test.path, test.user, response.StatusCode, body, test.status)
		}
	}
}

func TestALockBelongsToItsUser(t *testing.T) {
	const info = `<lockinfo xmlns="DAV:"><lockscope><exclusive/></lockscope><locktype><write/></locktype></lockinfo>`
	url := start(t) + "/dav/a"
	response, body := do(t, request(t, "LOCK", url, info), "ann", "secret")
	if response.StatusCode != 201 {
		t.Fatalf("LOCK: %d %q", response.StatusCode, body)
	}
	for _, test := range []struct {
		user, password string
		status         int
	}{{"ben", "other", 423}, {"ann", "secret", 204}} {
		r := request(t, "PUT", url, "hello")
		r.Header.Set("If", "("+response.Header.Get("Lock-Token")+")")
		if put, body := do(t, r, test.user, test.password); put.StatusCode != test.status {
			t.Errorf("PUT as %s: %d %q, want %d", test.user, put.StatusCode, body, test.status)
		}
	}
}
