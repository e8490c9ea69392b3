package auth

import (
	"context"
	"sync"
)

// flights lets callers that want the same at the same time share one call.
type flights struct {
	mu    sync.Mutex
	calls map[key]*call
}

// A call has a result when done is closed.
type call struct {
	done    chan struct{}
	cancel  context.CancelFunc
	waiting int // how many callers wait for it
	ok      bool
	err     error
}

// do returns what f returns. It waits for a call with the same key instead if one is under way, and calls f otherwise.
// The context of f ends when no caller waits any longer. So the end of one request does not disturb the others.
func (f *flights) do(ctx context.Context, k key, fn func(context.Context) (bool, error)) (bool, error) {
	c := f.join(k, fn)
	select {
	case <-c.done:
		return c.ok, c.err
	case <-ctx.Done():
		f.leave(k, c)
		return false, ctx.Err()
	}
}

func (f *flights) join(k key, fn func(context.Context) (bool, error)) *call {
	f.mu.Lock()
	defer f.mu.Unlock()
	c, ok := f.calls[k]
	if !ok {
		ctx, cancel := context.WithCancel(context.Background())
		c = &call{done: make(chan struct{}), cancel: cancel}
		f.calls[k] = c
		go f.run(ctx, k, c, fn)
	}
	c.waiting++
	return c
}

func (f *flights) run(ctx context.Context, k key, c *call, fn func(context.Context) (bool, error)) {
	defer c.cancel()
	c.ok, c.err = fn(ctx)
	f.mu.Lock()
	defer f.mu.Unlock()
	f.forget(k, c)
	close(c.done)
}

// leave says that a caller does not wait any longer.
func (f *flights) leave(k key, c *call) {
	f.mu.Lock()
	defer f.mu.Unlock()
	c.waiting--
	if c.waiting == 0 {
		c.cancel()
		f.forget(k, c) // later callers must not get the result of a cancelled call
	}
}

func (f *flights) forget(k key, c *call) {
	if f.calls[k] == c {
		delete(f.calls, k)
	}
}
