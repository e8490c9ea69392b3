//go:build ignore

package main

import (
	"fmt"
	"io"
	"net/http"

	"golang.org/x/net/webdav"
)

// A server is a handler over a new file system and a new lock system in memory. It counts the requests of a load.
type server struct {
	handler *webdav.Handler
	served  int
	err     error // why a request failed; the requests after it are not served
}

func newServer() *server {
	return &server{handler: &webdav.Handler{FileSystem: webdav.NewMemFS(), LockSystem: webdav.NewMemLS()}}
}

// A field is a header field: its name and its value.
type field struct{ name, value string }

// do builds a request, serves it and collects the response. A status other than due is an error.
func (s *server) do(method, path string, fields []field, body io.Reader, due int) *response {
	w := &response{header: make(http.Header)}
	if s.err != nil {
		return w
	}
	r, err := http.NewRequest(method, path, body)
	if err != nil {
		s.err = err
		return w
	}
	for _, f := range fields {
		r.Header.Set(f.name, f.value)
	}
	s.handler.ServeHTTP(w, r)
	s.served++
	if w.status != due {
		s.err = fmt.Errorf("%s %s: %d, not %d", method, path, w.status, due)
	}
	return w
}

// countEach counts the last request, which was for count resources, as one request for each of them.
func (s *server) countEach(count int) {
	s.served += count - 1
}

// A response is what the handler writes.
type response struct {
	header http.Header
	status int
	body   []byte
}

// Header returns the header fields.
func (w *response) Header() http.Header { return w.header }

// WriteHeader sets the status. The handler sets a second one if it fails while it writes a body, so the last counts.
func (w *response) WriteHeader(status int) { w.status = status }

// Write appends to the body.
func (w *response) Write(p []byte) (int, error) {
	if w.status == 0 {
		w.status = http.StatusOK
	}
	w.body = append(w.body, p...)
	return len(p), nil
}
