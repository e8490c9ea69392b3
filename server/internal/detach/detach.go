// Package detach has changes served whose clients leave before the response.
//
// A client that has sent a whole request may close its connection and expect the change to be made. net/http ends the
// context of the request then, and a handler that obeys it gives the change up.
package detach

import (
	"context"
	"net/http"
	"time"
)

// Changes returns a handler that passes requests to next, with the context that Request gives them.
func Changes(next http.Handler) http.Handler {
	return http.HandlerFunc(func(w http.ResponseWriter, r *http.Request) {
		next.ServeHTTP(w, Request(r))
	})
}

// Request returns the request with a context that is not done when its client leaves, if it is one that changes
// something. A body that breaks off is still an error of its reader, so only what has arrived whole is served. The context
// has the values of the one before.
//
// A LOCK is returned as it is: nobody would know the token of the lock.
func Request(r *http.Request) *http.Request {
	if !changes(r.Method) {
		return r
	}
	if _, ok := r.Context().(detached); ok {
		return r
	}
	return r.WithContext(detached{r.Context()})
}

// changes reports whether a method changes something, and leaves nothing that only its client can end.
func changes(method string) bool {
	switch method {
	case http.MethodPut, http.MethodPatch, http.MethodDelete, "MKCOL", "COPY", "MOVE", "PROPPATCH", "UNLOCK":
		return true
	}
	return false
}

// A detached context has the values of another one, and is never done.
type detached struct{ values context.Context }

// Deadline implements context.Context.
func (detached) Deadline() (time.Time, bool) { return time.Time{}, false }

// Done implements context.Context.
func (detached) Done() <-chan struct{} { return nil }

// Err implements context.Context.
func (detached) Err() error { return nil }

// Value implements context.Context.
func (d detached) Value(key any) any { return d.values.Value(key) }
