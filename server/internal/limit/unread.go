package limit

import (
	"io"
	"net"
	"net/http"
	"time"
)

// Unread returns a handler that passes requests to next, and bounds the time for the rest of a body that next does not
// read. net/http reads some of that rest after the handler, before it reads the next request, and has no bound of its
// own. The server needs ConnContext.
func Unread(d time.Duration, next http.Handler) http.Handler {
	return http.HandlerFunc(func(w http.ResponseWriter, r *http.Request) {
		c, ok := r.Context().Value(connKey{}).(net.Conn)
		if !ok || r.ContentLength == 0 || r.ProtoMajor != 1 {
			next.ServeHTTP(w, r)
			return
		}
		body := &seenBody{ReadCloser: r.Body}
		r = r.WithContext(r.Context()) // a copy, because net/http looks at the body of its own
		r.Body = body
		defer func() {
			if !body.ended {
				_ = c.SetReadDeadline(time.Now().Add(d)) // net/http sets another one for the next request
			}
		}()
		next.ServeHTTP(w, r)
	})
}

// A seenBody knows whether it was read to its end.
type seenBody struct {
	io.ReadCloser
	ended bool
}

// Read implements io.Reader.
func (b *seenBody) Read(p []byte) (int, error) {
	n, err := b.ReadCloser.Read(p)
	b.ended = b.ended || err != nil
	return n, err
}
