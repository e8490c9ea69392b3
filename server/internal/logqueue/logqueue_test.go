package logqueue

import (
	"bytes"
	"errors"
	"fmt"
	"strings"
	"sync"
	"testing"
	"time"
)

// A gate is a writer that waits until it is opened, and may fail then.
type gate struct {
	opened chan struct{}
	err    error

	mu      sync.Mutex
	written bytes.Buffer
}

func newGate() *gate { return &gate{opened: make(chan struct{})} }

func (g *gate) Write(p []byte) (int, error) {
	<-g.opened
	g.mu.Lock()
	defer g.mu.Unlock()
	if g.err != nil {
		return 0, g.err
	}
	return g.written.Write(p)
}

func (g *gate) text() string {
	g.mu.Lock()
	defer g.mu.Unlock()
	return g.written.String()
}

func TestEachLineIsPassedOnInOrder(t *testing.T) {
	to := newGate()
	close(to.opened)
	q := New(to, 1<<20)
	var want strings.Builder
	for i := 0; i < 1000; i++ {
		fmt.Fprintln(q, "line", i)
		fmt.Fprintln(&want, "line", i)
	}
	q.Close(5 * time.Second)
	if got := to.text(); got != want.String() || q.Dropped() != 0 {
		t.Errorf("%d bytes, %d dropped; want %d and 0", len(got), q.Dropped(), want.Len())
	}
}

func TestNobodyWaitsForAReaderThatDoesNotRead(t *testing.T) {
	const most, line = 1000, "0123456789\n"
	to := newGate()
	q := New(to, most)
	before := time.Now()
	for i := 0; i < 100_000; i++ {
		q.Write([]byte(line))
	}
	if took := time.Since(before); took > 5*time.Second {
		t.Errorf("the lines took %v", took)
	}
	q.mu.Lock()
	if len(q.waiting) > most || cap(q.waiting) > 4*most {
		t.Errorf("%d bytes wait in %d, want at most %d", len(q.waiting), cap(q.waiting), most)
	}
	q.mu.Unlock()
	close(to.opened)
	q.Close(5 * time.Second)
	passed, told := uint64(0), uint64(0)
	for _, text := range strings.SplitAfter(to.text(), "\n") {
		var dropped uint64
		if text == line {
			passed++
		} else if _, err := fmt.Sscanf(text, "%d lines of the log were dropped", &dropped); err == nil {
			told += dropped
		}
	}
	if passed+q.Dropped() != 100_000 || told != q.Dropped() {
		t.Errorf("%d lines passed on, %d dropped and %d told of, want 100000 together", passed, q.Dropped(), told)
	}
}

func TestTheEndDoesNotWaitForever(t *testing.T) {
	to := newGate()
	q := New(to, 1000)
	q.Write([]byte("never read\n"))
	before := time.Now()
	q.Close(50 * time.Millisecond)
	if took := time.Since(before); took > 5*time.Second {
		t.Errorf("Close took %v", took)
	}
	q.Write([]byte("too late\n"))
	if q.Dropped() != 1 {
		t.Errorf("%d dropped, want 1", q.Dropped())
	}
	close(to.opened)
}

func TestLinesThatCannotBeWrittenCount(t *testing.T) {
	to := newGate()
	to.err = errors.New("broken pipe")
	close(to.opened)
	q := New(to, 1000)
	q.Write([]byte("one\n"))
	for q.Dropped() == 0 { // So that a line says with the next one how many were dropped. It is lost, too, and is none of them.
		time.Sleep(time.Millisecond)
	}
	q.Write([]byte("two\n"))
	q.Close(5 * time.Second)
	if q.Dropped() != 2 {
		t.Errorf("%d dropped, want 2", q.Dropped())
	}
}
