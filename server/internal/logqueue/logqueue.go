// Package logqueue writes a log that nobody waits for: if its reader is slow, lines are dropped and counted.
package logqueue

import (
	"bytes"
	"fmt"
	"io"
	"sync"
	"time"
)

// A Queue passes the lines that are written to it on to another writer, in order. Write never waits for that writer. What
// is waiting is bounded in bytes. A Queue may be used by several goroutines at once.
type Queue struct {
	to   io.Writer
	most int
	done chan struct{} // closed when everything was passed on, after Close

	mu      sync.Mutex
	changed *sync.Cond
	waiting []byte
	dropped uint64 // lines since the last one that was passed on
	total   uint64
	closed  bool
}

// New returns a queue before to, in which at most so many bytes wait.
func New(to io.Writer, most int) *Queue {
	q := &Queue{to: to, most: most, done: make(chan struct{})}
	q.changed = sync.NewCond(&q.mu)
	go q.pass()
	return q
}

// Write implements io.Writer. A line for which there is no room, or that comes after Close, is dropped. The error is always
// nil, because a logger does nothing about one.
func (q *Queue) Write(line []byte) (int, error) {
	q.mu.Lock()
	defer q.mu.Unlock()
	if q.closed || len(q.waiting)+len(line) > q.most {
		q.dropped++
		q.total++
		return len(line), nil
	}
	q.waiting = append(q.waiting, line...)
	q.changed.Signal()
	return len(line), nil
}

// Dropped returns how many lines were dropped.
func (q *Queue) Dropped() uint64 {
	q.mu.Lock()
	defer q.mu.Unlock()
	return q.total
}

// Close ends the queue and waits until everything was passed on, but not longer than so long.
func (q *Queue) Close(wait time.Duration) {
	q.mu.Lock()
	q.closed = true
	q.changed.Signal()
	q.mu.Unlock()
	timer := time.NewTimer(wait)
	defer timer.Stop()
	select {
	case <-q.done:
	case <-timer.C:
	}
}

// pass passes on what is waiting, until the queue is closed. If the writer fails, the lines are lost and count as dropped.
func (q *Queue) pass() {
	defer close(q.done)
	for {
		lines, dropped, ok := q.take()
		if !ok {
			return
		}
		if _, err := q.to.Write(withNotice(lines, dropped)); err != nil {
			q.lose(lines, dropped)
		}
	}
}

// withNotice returns the lines, with one that says how many were dropped before, if some were.
func withNotice(lines []byte, dropped uint64) []byte {
	if dropped == 0 {
		return lines
	}
	return fmt.Appendf(lines, "%d lines of the log were dropped, because nobody read them in time\n", dropped)
}

// take waits for lines and returns them, and how many were dropped before. It returns false after the end.
func (q *Queue) take() (lines []byte, dropped uint64, ok bool) {
	q.mu.Lock()
	defer q.mu.Unlock()
	for len(q.waiting) == 0 && !q.closed {
		q.changed.Wait()
	}
	lines, q.waiting = q.waiting, nil
	if len(lines) == 0 {
		return nil, 0, false
	}
	dropped, q.dropped = q.dropped, 0
	return lines, dropped, true
}

// lose counts lines that could not be written. Those that were dropped before are still to be reported.
func (q *Queue) lose(lines []byte, dropped uint64) {
	q.mu.Lock()
	defer q.mu.Unlock()
	lost := uint64(bytes.Count(lines, []byte("\n")))
	q.dropped += dropped + lost
	q.total += lost
}
