package main

import (
	"bytes"
	"context"
	"fmt"
	"net/http"
	"strconv"
	"sync"
	"sync/atomic"
	"time"
)

// noResponse is the name under which requests without a response are counted.
const noResponse = "no response"

// pause is how long a worker waits after a request without a response, so that it does not spin.
const pause = 10 * time.Millisecond

// A tally is what a worker, or all of them, counted.
type tally struct {
	times    histogram      // of the requests with a status of 2xx
	failures map[string]int // by status, or noResponse
}

func (t *tally) add(status int, took time.Duration, err error) {
	switch {
	case err != nil:
		t.fail(noResponse, 1)
	case !isSuccess(status):
		t.fail(strconv.Itoa(status), 1)
	default:
		t.times.add(took)
	}
}

func (t *tally) fail(name string, count int) {
	if t.failures == nil {
		t.failures = map[string]int{}
	}
	t.failures[name] += count
}

func (t *tally) merge(other *tally) {
	t.times.merge(&other.times)
	for name, count := range other.failures {
		t.fail(name, count)
	}
}

// A worker sends its requests in turn, on one connection.
type worker struct {
	tally
	requests   []request
	connection connection
	lasted     time.Duration // from the start to the end of its last request
}

// rate returns how many requests a second succeeded.
func (w *worker) rate() float64 {
	if w.lasted <= 0 {
		return 0
	}
	return float64(w.times.total) / w.lasted.Seconds()
}

// send sends requests until it must stop. It ends with the last response.
func (w *worker) send(stop *atomic.Bool) {
	first := time.Now()
	last := first
	for i := 0; !stop.Load(); i++ {
		status, err := w.connection.do(w.requests[i%len(w.requests)])
		now := time.Now()
		w.add(status, now.Sub(last), err)
		if err != nil {
			time.Sleep(pause)
			now = time.Now()
		}
		last = now
	}
	w.lasted = last.Sub(first)
}

// A crew is the workers that load a server at the same time.
type crew struct {
	workers []*worker
	writers []*worker // of large bodies, beside the others, in mixed
}

func newCrew(s server, k kind, connections, writers int) *crew {
	c := &crew{}
	for i := 0; i < connections; i++ {
		c.workers = append(c.workers, newWorker(s, requestsOf(s, k, i)))
	}
	if k != mixed {
		return c
	}
	large := bytes.Repeat([]byte("y"), largeBytes)
	for i := 0; i < writers; i++ {
		r := newRequest(s, http.MethodPut, fmt.Sprintf("/load/p%d", i), large)
		c.writers = append(c.writers, newWorker(s, []request{r}))
	}
	return c
}

func newWorker(s server, requests []request) *worker {
	return &worker{requests: requests, connection: connection{address: s.address}}
}

// work lets all workers send for the duration. Before it, each sends one request that is not counted, which opens its
// connection.
func (c *crew) work(ctx context.Context, duration time.Duration) {
	var ready, done sync.WaitGroup
	var stop atomic.Bool
	start := make(chan struct{})
	deadline := time.Now().Add(duration + 2*answerTime)
	for _, w := range append(append([]*worker(nil), c.workers...), c.writers...) {
		ready.Add(1)
		done.Add(1)
		go func(w *worker) {
			defer done.Done()
			defer w.connection.close()
			w.connection.deadline = deadline
			_, _ = w.connection.do(w.requests[0])
			ready.Done()
			<-start
			w.send(&stop)
		}(w)
	}
	ready.Wait()
	close(start)
	wait(ctx, duration)
	stop.Store(true)
	done.Wait()
}

// wait waits for a duration, or until the context ends.
func wait(ctx context.Context, duration time.Duration) {
	timer := time.NewTimer(duration)
	defer timer.Stop()
	select {
	case <-timer.C:
	case <-ctx.Done():
	}
}
