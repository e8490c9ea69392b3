// Package accesslog logs a line for each HTTP request.
package accesslog

import (
	"context"
	"fmt"
	"log"
	"net/http"
	"runtime/debug"
	"strconv"
	"strings"
	"sync/atomic"
	"time"
)

// maxQuoted is how many bytes of a method, path or user are logged.
const maxQuoted = 2048

type userKey struct{}

// SetUser says who the user of a request is, for its line. The context is that of the request below New.
func SetUser(ctx context.Context, name string) {
	if user, ok := ctx.Value(userKey{}).(*atomic.Pointer[string]); ok {
		user.Store(&name)
	}
}

// A Request is what is known of a request that has ended.
type Request struct {
	Method   string
	Status   int // 0: no status was sent
	Duration time.Duration
	Aborted  bool // the response was broken off, or there was none
}

// New returns a handler that passes requests to next and logs a line for each when it ends:
//
//	192.0.2.1:5000 "alice" PUT "/dav/a%20b" 201 0 1.234ms
//
// These are the address of the client, the user or -, the method, the path as it came without the query, the status,
// the bytes of the response's body, and the duration. The path and the user are quoted as in Go and in ASCII, so that
// no client can forge a line or a field.
//
// If next panics with http.ErrAbortHandler, the line ends with "aborted" and the panic goes on. Any other panic is
// logged with its stack. The response is then 500, or it is aborted if it had begun.
//
// Each observer is called with each request, before its line is logged.
func New(l *log.Logger, next http.Handler, observers ...func(Request)) http.Handler {
	return &handler{log: l, next: next, observers: observers}
}

type handler struct {
	log       *log.Logger
	next      http.Handler
	observers []func(Request)
}

func (h *handler) ServeHTTP(w http.ResponseWriter, r *http.Request) {
	line := &line{
		start:  time.Now(),
		remote: r.RemoteAddr,
		method: r.Method,
		path:   r.URL.EscapedPath(),
	}
	r = r.WithContext(context.WithValue(r.Context(), userKey{}, &line.user))
	seen := &response{ResponseWriter: w}
	defer func() {
		if abort := h.end(line, seen, recover()); abort {
			panic(http.ErrAbortHandler)
		}
	}()
	h.next.ServeHTTP(seen, r)
}

// end logs the line of a request. The value is that of the handler's panic, or nil. It reports whether the response
// must be aborted.
func (h *handler) end(line *line, seen *response, value any) (abort bool) {
	if value != nil && value != http.ErrAbortHandler {
		h.log.Printf("panic: %s\n%s", quote(fmt.Sprint(value)), debug.Stack())
		if seen.status == 0 {
			seen.fail()
			value = nil
		}
	}
	abort = value != nil
	if !abort && seen.status == 0 {
		seen.status = http.StatusOK // net/http sends it
	}
	duration := time.Since(line.start)
	for _, observe := range h.observers {
		observe(Request{Method: line.method, Status: seen.status, Duration: duration, Aborted: abort})
	}
	h.log.Print(line.text(seen, duration, abort))
	return abort
}

// A line is what a request's line says of the request.
type line struct {
	start                time.Time
	remote, method, path string
	user                 atomic.Pointer[string]
}

func (l *line) text(seen *response, duration time.Duration, aborted bool) string {
	user := "-"
	if name := l.user.Load(); name != nil {
		user = quote(*name)
	}
	method := l.method
	if !isWord(method) {
		method = quote(method)
	}
	status := "-"
	if seen.status != 0 {
		status = strconv.Itoa(seen.status)
	}
	end := ""
	if aborted {
		end = " aborted"
	}
	return fmt.Sprintf("%s %s %s %s %s %d %s%s",
		l.remote, user, method, quote(l.path), status, seen.bytes, duration.Round(time.Microsecond), end)
}

// quote returns s as a string in Go and in ASCII. Of a long one it has the first bytes and an ellipsis.
func quote(s string) string {
	if len(s) > maxQuoted {
		return strconv.QuoteToASCII(s[:maxQuoted]) + "..."
	}
	return strconv.QuoteToASCII(s)
}

// isWord reports whether a method has nothing but letters and hyphens. HTTP/2 allows any visible byte and spaces.
func isWord(method string) bool {
	return method != "" && len(method) <= 32 && strings.Trim(method, "ABCDEFGHIJKLMNOPQRSTUVWXYZ-") == ""
}
