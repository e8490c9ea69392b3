package main

import (
	"context"
	"fmt"
	"io"
	"os"
	"sync"
	"sync/atomic"
	"time"

	"golang.org/x/sys/unix"
)

const (
	showPause = 200 * time.Millisecond // until the progress line is written again
	ratePause = 3 * time.Second        // over which the rate is taken
	eraseLine = "\r\x1b[K"
)

// A screen is where messages and, on a terminal, a line of progress are written.
type screen struct {
	output io.Writer
	shows  bool // it has a progress line

	mu      sync.Mutex
	isShown bool // a progress line is on it
}

// newScreen returns a screen. If it is quiet, or if the output is no terminal, it has no progress line.
func newScreen(output io.Writer, quiet bool) *screen {
	return &screen{output: output, shows: !quiet && isTerminal(output)}
}

func isTerminal(output io.Writer) bool {
	file, ok := output.(*os.File)
	if !ok {
		return false
	}
	_, err := unix.IoctlGetWinsize(int(file.Fd()), unix.TIOCGWINSZ)
	return err == nil
}

// Write writes a message in the place of the progress line. The message ends with a line end.
func (s *screen) Write(message []byte) (int, error) {
	s.mu.Lock()
	defer s.mu.Unlock()
	s.erase()
	return s.output.Write(message)
}

// say writes a message of one line.
func (s *screen) say(format string, arguments ...any) {
	fmt.Fprintf(s, format+"\n", arguments...)
}

// print writes a text to another output, such as a file or the same terminal, in the place of the progress line.
func (s *screen) print(output io.Writer, text string) {
	s.mu.Lock()
	defer s.mu.Unlock()
	s.erase()
	io.WriteString(output, text)
}

// erase removes the progress line. It is called with s.mu held.
func (s *screen) erase() {
	if s.isShown {
		io.WriteString(s.output, eraseLine)
		s.isShown = false
	}
}

// show writes a progress line until the function that it returns is called. The line gets the total that is measured
// meanwhile, and how many bytes a second were done of late.
func (s *screen) show(
	ctx context.Context, line func(total int64, rate float64) string, measure func(context.Context) int64, bytes *atomic.Int64,
) (stop func()) {
	if !s.shows {
		return func() {}
	}
	ctx, cancel := context.WithCancel(ctx)
	var total atomic.Int64
	if measure != nil {
		go func() { total.Store(measure(ctx)) }()
	}
	ended := make(chan struct{})
	go func() {
		defer close(ended)
		s.repeat(ctx, func(rate float64) string { return line(total.Load(), rate) }, bytes)
	}()
	return func() {
		cancel()
		<-ended
	}
}

// repeat writes the progress line again and again, until ctx is done. Then it removes it.
func (s *screen) repeat(ctx context.Context, line func(rate float64) string, bytes *atomic.Int64) {
	ticker := time.NewTicker(showPause)
	defer ticker.Stop()
	done := []int64{bytes.Load()} // how many bytes were done at the last times
	for {
		select {
		case <-ctx.Done():
			s.mu.Lock()
			s.erase()
			s.mu.Unlock()
			return
		case <-ticker.C:
		}
		done = append(done, bytes.Load())
		if len(done) > int(ratePause/showPause)+1 {
			done = done[1:]
		}
		last := len(done) - 1
		rate := float64(done[last]-done[0]) / (showPause.Seconds() * float64(last))
		s.mu.Lock()
		io.WriteString(s.output, eraseLine+line(rate))
		s.isShown = true
		s.mu.Unlock()
	}
}
