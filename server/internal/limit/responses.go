package limit

import "net/http"

// Responses returns a handler that passes requests to next, and closes a connection of HTTP/2 whose client does not
// receive a response at the pace. There a client says for each response how much of it may be sent, so that the
// connection may go on while one response waits for ever. With HTTP/1.1 the writes of the connection are bounded, as
// those of Listener. The server needs ConnContext.
func Responses(pace Pace, next http.Handler) http.Handler {
	return http.HandlerFunc(func(w http.ResponseWriter, r *http.Request) {
		if r.ProtoMajor != 2 {
			next.ServeHTTP(w, r)
			return
		}
		paced := &pacedResponse{ResponseWriter: w, dog: Watch(r.Context(), pace)}
		next.ServeHTTP(paced, r)
		if paced.isWritten {
			paced.Flush() // Else the server would wait for the client after the handler, without a bound.
		}
	})
}

// A pacedResponse watches the client while it is written to.
type pacedResponse struct {
	http.ResponseWriter
	dog       *Watchdog
	isWritten bool
}

// Write implements io.Writer.
func (p *pacedResponse) Write(b []byte) (n int, err error) {
	p.isWritten = true
	p.dog.Begin()
	defer func() { p.dog.End(n) }()
	return p.ResponseWriter.Write(b)
}

// Flush implements http.Flusher.
func (p *pacedResponse) Flush() {
	flusher, ok := p.ResponseWriter.(http.Flusher)
	if !ok {
		return
	}
	p.dog.Begin()
	defer p.dog.End(0)
	flusher.Flush()
}
