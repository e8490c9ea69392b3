package main

import (
	"context"
	"io"
	"net/http"
	"sync"
	"time"
)

// healthPath is the path at which the server says whether it works. A resource of this path cannot be reached.
const healthPath = "/-/health"

// healthTime is how long davd may take to answer.
const healthTime = 5 * time.Second

// A health answers whether davd answers. Requests that come at the same time share a check.
type health struct {
	check func(context.Context) error

	mu      sync.Mutex
	running *checkup // nil: none
	next    *checkup // begins when the running one ends; nil: nobody has come since that began
}

// A checkup has a result when done is closed.
type checkup struct {
	done chan struct{}
	err  error
}

// handler answers at healthPath, within a limit of its own.
func (h *health) handler(l *limits) http.Handler {
	return l.checkup(http.HandlerFunc(h.serve))
}

func (h *health) serve(w http.ResponseWriter, r *http.Request) {
	if r.Method != http.MethodGet && r.Method != http.MethodHead {
		w.Header().Set("Allow", "GET, HEAD")
		http.Error(w, "405 Method Not Allowed", http.StatusMethodNotAllowed)
		return
	}
	c := h.join()
	select {
	case <-c.done:
	case <-r.Context().Done():
		panic(http.ErrAbortHandler) // The client has left.
	}
	w.Header().Set("Cache-Control", "no-store")
	if c.err != nil {
		http.Error(w, "davd does not answer", http.StatusServiceUnavailable)
		return
	}
	w.Header().Set("Content-Type", "text/plain; charset=utf-8")
	io.WriteString(w, "ok\n")
}

// join returns a check that begins now or later, so that its result is no older than the request.
func (h *health) join() *checkup {
	h.mu.Lock()
	defer h.mu.Unlock()
	if h.running == nil {
		h.running = &checkup{done: make(chan struct{})}
		go h.run(h.running)
		return h.running
	}
	if h.next == nil {
		h.next = &checkup{done: make(chan struct{})}
	}
	return h.next
}

// run does a check, and those that are wanted meanwhile.
func (h *health) run(c *checkup) {
	for c != nil {
		ctx, cancel := context.WithTimeout(context.Background(), healthTime)
		c.err = h.check(ctx)
		cancel()
		close(c.done)
		h.mu.Lock()
		h.running, h.next = h.next, nil
		c = h.running
		h.mu.Unlock()
	}
}
