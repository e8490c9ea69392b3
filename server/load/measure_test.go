package main

import (
	"context"
	"encoding/json"
	"fmt"
	"io"
	"net/http"
	"net/http/httptest"
	"os"
	"path/filepath"
	"reflect"
	"strings"
	"sync"
	"testing"
	"time"
)

func TestOrderOf(t *testing.T) {
	for _, c := range []struct {
		round, servers int
		want           []int
	}{
		{0, 3, []int{0, 1, 2}}, {1, 3, []int{2, 1, 0}}, {2, 3, []int{0, 1, 2}}, {3, 1, []int{0}},
	} {
		if got := orderOf(c.round, c.servers); !reflect.DeepEqual(got, c.want) {
			t.Errorf("orderOf(%d, %d) = %v, want %v", c.round, c.servers, got, c.want)
		}
	}
}

func TestTally(t *testing.T) {
	var a, b tally
	a.add(204, 5, nil)
	a.add(503, 1, nil)
	b.add(207, 9, nil)
	b.add(503, 1, nil)
	b.add(0, 1, io.EOF)
	a.merge(&b)
	want := map[string]int{"503": 2, noResponse: 1}
	if a.times.total != 2 || a.times.longest != 9 || !reflect.DeepEqual(a.failures, want) {
		t.Errorf("%d times up to %d and %v, want 2 up to 9 and %v", a.times.total, a.times.longest, a.failures, want)
	}
}

// A recorder answers like a WebDAV server in which everything is fine, and counts what is requested.
type recorder struct {
	mutex  sync.Mutex
	counts map[string]int
}

func (r *recorder) count(name string) int {
	r.mutex.Lock()
	defer r.mutex.Unlock()
	return r.counts[name]
}

func (r *recorder) ServeHTTP(w http.ResponseWriter, request *http.Request) {
	io.Copy(io.Discard, request.Body)
	r.mutex.Lock()
	r.counts[request.Method+request.Header.Get("Depth")]++
	r.mutex.Unlock()
	status := map[string]int{"GET": 200, "PUT": 204, "MKCOL": 201, "DELETE": 204, "PROPFIND": 207}[request.Method]
	if status == 0 || !strings.HasPrefix(request.URL.Path, "/dav/load/") {
		status = 400
	}
	w.WriteHeader(status)
}

func TestRun(t *testing.T) {
	handlers := []*recorder{{counts: map[string]int{}}, {counts: map[string]int{}}}
	file := filepath.Join(t.TempDir(), "results")
	o := options{duration: 100 * time.Millisecond, rounds: 1, writers: 1, connections: []int{2}, kinds: kinds, json: file}
	for i, h := range handlers {
		s := httptest.NewServer(h)
		defer s.Close()
		address := strings.TrimPrefix(s.URL, "http://")
		o.servers = append(o.servers, server{name: fmt.Sprint("s", i), address: address, base: "/dav"})
	}
	var out strings.Builder
	if err := run(context.Background(), o, &out, io.Discard); err != nil {
		t.Fatal(err)
	}
	if lines := strings.Count(out.String(), "\n"); lines != 2+4*2+1+2+2+1 {
		t.Errorf("the tables have %d lines:\n%s", lines, out.String())
	}
	for i, h := range handlers {
		for _, method := range []string{"MKCOL", "GET", "PUT", "PROPFIND0", "PROPFIND1", "DELETEinfinity"} {
			if h.count(method) == 0 {
				t.Errorf("server %d got no %s", i, method)
			}
		}
	}
	checkJSON(t, file)
}

func checkJSON(t *testing.T, file string) {
	text, err := os.ReadFile(file)
	if err != nil {
		t.Fatal(err)
	}
	var report struct{ Rows []jsonRow }
	if err := json.Unmarshal(text, &report); err != nil {
		t.Fatal(err)
	}
	if len(report.Rows) != 2*len(kinds) {
		t.Errorf("the file has %d rows, want %d", len(report.Rows), 2*len(kinds))
	}
	for _, r := range report.Rows {
		if r.Rate <= 0 || len(r.Rates) != 1 || len(r.Errors) != 0 || r.P50 > r.P99 || r.P99 > r.Max {
			t.Errorf("a row is %+v", r)
		}
		if (r.PutMBs > 0) != (r.Kind == mixed) {
			t.Errorf("a row of %s has %v MB/s", r.Kind, r.PutMBs)
		}
	}
}

func TestRunRemovesAfterFailure(t *testing.T) {
	h := &recorder{counts: map[string]int{}}
	s := httptest.NewServer(h)
	defer s.Close()
	address := strings.TrimPrefix(s.URL, "http://")
	o := options{duration: time.Minute, rounds: 1, connections: []int{1}, kinds: []kind{get},
		servers: []server{{name: "a", address: address, base: "/dav"}}}
	ctx, cancel := context.WithTimeout(context.Background(), 50*time.Millisecond)
	defer cancel()
	if err := run(ctx, o, io.Discard, io.Discard); err == nil {
		t.Error("run returns no error after its context has ended")
	}
	if got := h.count("DELETEinfinity"); got != 1 {
		t.Errorf("the server got %d DELETE, want 1", got)
	}
	o.servers[0].base = "/other"
	if err := run(context.Background(), o, io.Discard, io.Discard); err == nil {
		t.Error("run returns no error where MKCOL is 400")
	}
}
