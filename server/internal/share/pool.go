// Package share divides what a server has among its clients, so that no client can have all of it.
package share

import (
	"container/list"
	"context"
	"errors"
	"sync"
	"time"
)

// ErrBusy says that a client has its share, or that others have everything, and that waiting did not help.
var ErrBusy = errors.New("the share of the client is in use")

// A Key names a client: its user or, without one, its network.
type Key string

// A Pool has a number of units for all clients together, such as requests at once or bytes. Its methods may be called
// from several goroutines.
//
// A client may have a part of the units that the others do not have, rounded up. So some are left for one who comes
// later. A client that has none may have all that are free. What does not get its units waits, and is served in turn by
// client: first who has the fewest units, and of these who was served longest ago. Each client's own requests are served
// in the order in which they came.
type Pool struct {
	total   int64
	percent int64
	queue   int64 // how many may wait

	mu      sync.Mutex
	free    int64
	waiting int64
	turn    uint64
	clients map[Key]*client // those that have units or wait
}

// A client has some units, and some calls that wait.
type client struct {
	held   int64
	served uint64    // the turn in which it was served last
	calls  list.List // of *call, in the order of their coming
}

// A call waits for units.
type call struct {
	n       int64
	granted chan struct{} // closed when it has them
}

// NewPool returns a pool of so many units. A client may have this percentage of what the others leave, and the same of
// the places in the queue, which has room for so many calls. All three are at least 1, and the percentage at most 100.
func NewPool(total int64, percent, queue int) *Pool {
	return &Pool{
		total: total, percent: int64(percent), queue: int64(queue), free: total, clients: make(map[Key]*client),
	}
}

// A Lease is units that a client has.
type Lease struct {
	pool *Pool
	key  Key
	n    int64
}

// Acquire takes n units for a client. It waits at most for the patience, or until ctx is done. More units than the pool
// has are all of them. The error is ErrBusy or that of ctx. The caller must release the lease.
func (p *Pool) Acquire(ctx context.Context, key Key, n int64, patience time.Duration) (*Lease, error) {
	if n > p.total {
		n = p.total
	}
	p.mu.Lock()
	c := p.client(key)
	if c.calls.Len() == 0 && p.fits(c, n) {
		p.grant(c, n)
		p.mu.Unlock()
		return &Lease{pool: p, key: key, n: n}, nil
	}
	mine := int64(c.calls.Len())
	if patience <= 0 || p.waiting >= p.queue || mine >= part(p.percent, p.queue-p.waiting+mine) {
		p.forget(key, c)
		p.mu.Unlock()
		return nil, ErrBusy
	}
	waits := &call{n: n, granted: make(chan struct{})}
	element := c.calls.PushBack(waits)
	p.waiting++
	p.mu.Unlock()
	if err := p.wait(ctx, waits, patience); err != nil && !p.leave(key, c, element) {
		return nil, err
	}
	return &Lease{pool: p, key: key, n: n}, nil
}

// wait waits until a call is granted.
func (p *Pool) wait(ctx context.Context, waits *call, patience time.Duration) error {
	timer := time.NewTimer(patience)
	defer timer.Stop()
	select {
	case <-waits.granted:
		return nil
	case <-timer.C:
		return ErrBusy
	case <-ctx.Done():
		return ctx.Err()
	}
}

// leave takes a call out of the queue. It reports whether the call was granted meanwhile.
func (p *Pool) leave(key Key, c *client, element *list.Element) (granted bool) {
	p.mu.Lock()
	defer p.mu.Unlock()
	select {
	case <-element.Value.(*call).granted:
		return true
	default:
	}
	c.calls.Remove(element)
	p.waiting--
	p.forget(key, c)
	p.serve() // The next call of the client may want less.
	return false
}

// Release gives the units back. A second call does nothing, and neither does one of a nil lease.
func (l *Lease) Release() {
	if l == nil {
		return
	}
	l.pool.mu.Lock()
	defer l.pool.mu.Unlock()
	l.give(l.n)
}

// Grow takes n units more if the client may have them now. Otherwise the error is ErrBusy.
func (l *Lease) Grow(n int64) error {
	p := l.pool
	p.mu.Lock()
	defer p.mu.Unlock()
	if most := p.total - l.n; n > most { // A call alone may have more than the pool, as with Acquire.
		n = most
	}
	c := p.client(l.key)
	if !p.fits(c, n) && (c.held > l.n || n > p.free) {
		p.forget(l.key, c)
		return ErrBusy
	}
	p.grant(c, n)
	l.n += n
	return nil
}

// Shrink gives units back until n are left.
func (l *Lease) Shrink(n int64) {
	if l == nil {
		return
	}
	l.pool.mu.Lock()
	defer l.pool.mu.Unlock()
	if n < l.n {
		l.give(l.n - n)
	}
}

// give gives units back. The lock is held.
func (l *Lease) give(n int64) {
	p := l.pool
	c := p.clients[l.key]
	if c == nil {
		return
	}
	l.n -= n
	c.held -= n
	p.free += n
	p.forget(l.key, c)
	p.serve()
}

// Use returns how many units are in use, and how many calls wait.
func (p *Pool) Use() (held, waiting int64) {
	p.mu.Lock()
	defer p.mu.Unlock()
	return p.total - p.free, p.waiting
}

// client returns what is known of a client. The lock is held, as it is for what follows.
func (p *Pool) client(key Key) *client {
	c, ok := p.clients[key]
	if !ok {
		c = &client{}
		p.clients[key] = c
	}
	return c
}

// forget forgets a client that has nothing and waits for nothing.
func (p *Pool) forget(key Key, c *client) {
	if c.held == 0 && c.calls.Len() == 0 {
		delete(p.clients, key)
	}
}

// fits reports whether a client may have n units more.
func (p *Pool) fits(c *client, n int64) bool {
	return n <= p.free && (c.held == 0 || c.held+n <= part(p.percent, p.free+c.held))
}

// part returns a percentage of a number, rounded up.
func part(percent, of int64) int64 {
	return of/100*percent + (of%100*percent+99)/100
}

func (p *Pool) grant(c *client, n int64) {
	p.turn++
	c.served = p.turn
	c.held += n
	p.free -= n
}

// serve grants what waits, for as long as a client may have what it wants.
func (p *Pool) serve() {
	for p.waiting > 0 && p.free > 0 {
		c := p.next()
		if c == nil {
			return
		}
		first := c.calls.Front()
		waits := first.Value.(*call)
		c.calls.Remove(first)
		p.waiting--
		p.grant(c, waits.n)
		close(waits.granted)
	}
}

// next returns the client whose turn it is, or nil if none may have what it waits for.
func (p *Pool) next() (first *client) {
	for _, c := range p.clients {
		if c.calls.Len() == 0 || !p.fits(c, c.calls.Front().Value.(*call).n) {
			continue
		}
		if first == nil || c.held < first.held || c.held == first.held && c.served < first.served {
			first = c
		}
	}
	return first
}
