package auth

import (
	"container/list"
	"context"
	"fmt"
	"net/netip"
	"sync"
	"time"
)

const (
	firstDelay = 250 * time.Millisecond
	lastDelay  = 4 * time.Second
	hotTime    = 15 * time.Minute
	maxHot     = 10000 // addresses
)

// A clock is the time of day, and waits.
type clock struct {
	now   func() time.Time
	sleep func(ctx context.Context, d time.Duration) error
}

func systemClock() clock {
	return clock{now: time.Now, sleep: sleep}
}

// sleep waits for d, or until the context ends.
func sleep(ctx context.Context, d time.Duration) error {
	timer := time.NewTimer(d)
	defer timer.Stop()
	select {
	case <-timer.C:
		return nil
	case <-ctx.Done():
		return ctx.Err()
	}
}

// A busyError says that too many requests wait for their delay.
type busyError struct {
	after time.Duration // when another try makes sense
}

func (e *busyError) Error() string {
	return fmt.Sprintf("too many password checks wait, try again in %v", e.after)
}

// delays counts the failures of addresses and says how long their next attempts wait. Basic documents the rule.
type delays struct {
	now    func() time.Time
	most   int // how many requests may wait
	mostOf int // of one address

	mu      sync.Mutex
	waiting int
	hot     map[netip.Prefix]*list.Element
	order   list.List // of *offender, the one that failed least recently first
}

// An offender is an address with failures.
type offender struct {
	address  netip.Prefix
	failures int
	last     time.Time
	waiting  int
}

// newDelays returns delays in which at most most requests wait, most at least 1.
func newDelays(most int, now func() time.Time) *delays {
	mostOf := most / 4
	if mostOf < 1 {
		mostOf = 1
	}
	return &delays{now: now, most: most, mostOf: mostOf, hot: make(map[netip.Prefix]*list.Element)}
}

// enter returns how long an attempt from the address waits: 0 if the address is not hot. It counts an attempt that
// waits until leave is called. The error is a *busyError if too many wait already.
func (d *delays) enter(address netip.Prefix) (wait time.Duration, leave func(), err error) {
	d.mu.Lock()
	defer d.mu.Unlock()
	d.cool()
	e, ok := d.hot[address]
	if !ok {
		return 0, func() {}, nil
	}
	o := e.Value.(*offender)
	wait = delayAfter(o.failures)
	if d.waiting >= d.most || o.waiting >= d.mostOf {
		return 0, nil, &busyError{after: wait}
	}
	d.waiting++
	o.waiting++
	return wait, func() { d.leave(o) }, nil
}

func (d *delays) leave(o *offender) {
	d.mu.Lock()
	defer d.mu.Unlock()
	d.waiting--
	o.waiting--
}

// failed counts a failure of an address.
func (d *delays) failed(address netip.Prefix) {
	d.mu.Lock()
	defer d.mu.Unlock()
	d.cool()
	e, ok := d.hot[address]
	if !ok {
		if d.order.Len() >= maxHot {
			d.remove(d.order.Front())
		}
		e = d.order.PushBack(&offender{address: address})
		d.hot[address] = e
	}
	o := e.Value.(*offender)
	o.failures++
	o.last = d.now()
	d.order.MoveToBack(e)
}

// cool forgets the addresses that have not failed for hotTime.
func (d *delays) cool() {
	now := d.now()
	for e := d.order.Front(); e != nil && now.Sub(e.Value.(*offender).last) >= hotTime; e = d.order.Front() {
		d.remove(e)
	}
}

func (d *delays) remove(e *list.Element) {
	delete(d.hot, e.Value.(*offender).address)
	d.order.Remove(e)
}

// delayAfter returns the delay after a number of failures, at least 1.
func delayAfter(failures int) time.Duration {
	delay := firstDelay
	for i := 1; i < failures && delay < lastDelay; i++ {
		delay *= 2
	}
	return delay
}
