package main

import (
	"fmt"
	"math"
	"net/http"
	"net/http/httptest"
	"runtime/debug"
	"strings"
	"testing"
	"time"

	"davserve/internal/auth"
)

// configOf parses the options of a server.
func configOf(t *testing.T, arguments string) config {
	t.Helper()
	c, err := parse(strings.Fields(arguments), new(strings.Builder))
	if err != nil {
		t.Fatal(err)
	}
	return c
}

func TestWhoseARequestIs(t *testing.T) {
	const proxy = "-user-header X-User -trusted-proxy 10.0.0.0/8"
	tests := []struct {
		arguments, remote, user string
		fields                  map[string]string
		address, client         string // what limits go by when it comes, and when it is served
	}{
		{"", "192.0.2.1:1", "", nil, "192.0.2.1/32", "192.0.2.1/32"},
		{"", "192.0.2.1:1", "ann", nil, "192.0.2.1/32", "user ann"},
		{"", "192.0.2.1:1", "", map[string]string{"X-Forwarded-For": "192.0.2.2"}, "192.0.2.1/32", "192.0.2.1/32"},
		{"-trusted-proxy 10.0.0.0/8", "10.0.0.1:1", "", map[string]string{"X-Forwarded-For": "192.0.2.2"},
			"192.0.2.2/32", "192.0.2.2/32"},
		{proxy, "10.0.0.1:1", "ann", map[string]string{"X-User": "ann", "X-Forwarded-For": "192.0.2.2"}, "user ann", "user ann"},
		{proxy, "10.0.0.1:1", "", nil, "10.0.0.1/32", "10.0.0.1/32"},
		{proxy, "192.0.2.1:1", "", map[string]string{"X-User": "ann"}, "192.0.2.1/32", "192.0.2.1/32"},
	}
	for _, test := range tests {
		c := configOf(t, test.arguments)
		r := httptest.NewRequest("GET", "/", nil)
		r.RemoteAddr = test.remote
		for name, value := range test.fields {
			r.Header.Set(name, value)
		}
		if test.user != "" {
			r = r.WithContext(auth.WithUser(r.Context(), test.user))
		}
		l := c.newLimits()
		if got := string(l.address(r)); got != test.address {
			t.Errorf("%+v: it comes from %s", test, got)
		}
		if got := string(l.client(r)); got != test.client {
			t.Errorf("%+v: it is served as of %s", test, got)
		}
	}
}

// One address has half of the requests in the server, and another one half of the rest.
func TestRequestsInside(t *testing.T) {
	c := configOf(t, "-max-requests 4")
	hold := make(chan struct{})
	entered := make(chan struct{}, 100)
	h := c.newLimits().enter(http.HandlerFunc(func(http.ResponseWriter, *http.Request) {
		entered <- struct{}{}
		<-hold
	}))
	statuses := make(chan int, 100)
	ask := func(address string) {
		r, w := httptest.NewRequest("GET", "/", nil), httptest.NewRecorder()
		r.RemoteAddr = address + ":1"
		h.ServeHTTP(w, r)
		statuses <- w.Code
	}
	for i, want := range []int{8, 4, 2} {
		for j := 0; j < 16; j++ {
			go ask(fmt.Sprintf("192.0.2.%d", i))
		}
		for j := 0; j < 16-want; j++ {
			if status := <-statuses; status != http.StatusServiceUnavailable {
				t.Errorf("status %d", status)
			}
		}
		for j := 0; j < want; j++ {
			select {
			case <-entered:
			case <-time.After(5 * time.Second):
				t.Fatalf("client %d: %d requests are in the server, want %d", i, j, want)
			}
		}
	}
	close(hold)
}

func TestMemoryLimit(t *testing.T) {
	before := debug.SetMemoryLimit(-1)
	defer debug.SetMemoryLimit(before)
	debug.SetMemoryLimit(math.MaxInt64)
	t.Setenv("GOMEMLIMIT", "5GiB")
	limitMemory()
	if got := debug.SetMemoryLimit(-1); got != math.MaxInt64 {
		t.Errorf("with GOMEMLIMIT it is %d", got)
	}
	t.Setenv("GOMEMLIMIT", "")
	limitMemory()
	if got := debug.SetMemoryLimit(-1); got != memoryLimit {
		t.Errorf("without it is %d, want %d", got, memoryLimit)
	}
}
