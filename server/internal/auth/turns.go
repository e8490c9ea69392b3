package auth

import (
	"container/list"
	"context"
	"net/netip"
	"sync"
	"time"
)

const (
	// maxTurns is how many checks may wait for a processor, and turnTime how long each may.
	maxTurns = 1024
	turnTime = 30 * time.Second
	// countTime is how long the checks of a network or a name count, and maxCounted how many of them are counted.
	countTime  = 10 * time.Second
	maxCounted = 10000
)

// turns has a few processors for the checks of passwords, and decides which check is next.
//
// It is the one whose wide network and whose name together have had the fewest checks lately, and of these the newest. So
// whoever comes once is served before all who try many passwords, from one network or of one user, also when these wait
// already. Whether there is a user of the name makes no difference: else the time would show it. Checks of addresses that have
// failed lately come after all others, and leave one processor to these, if there are two or more.
type turns struct {
	now func() time.Time

	mu      sync.Mutex
	free    int
	cold    int       // how many processors only addresses have that have not failed
	waiting list.List // of *turn, the newest first
	wides   tally[netip.Prefix]
	names   tally[key]
	counted time.Time // when the counts were halved
}

// A turn is a check that waits.
type turn struct {
	wide    netip.Prefix
	name    key
	isHot   bool
	granted chan struct{} // closed when it may run
}

func newTurns(processors int, now func() time.Time) *turns {
	t := &turns{now: now, free: processors, wides: make(tally[netip.Prefix]), names: make(tally[key]), counted: now()}
	if processors > 1 {
		t.cold = 1
	}
	return t
}

// acquire waits for a processor. The caller must call release. The error is a *busyError if too many
// checks wait, or this one for too long.
func (t *turns) acquire(ctx context.Context, address netip.Prefix, name key, isHot bool) error {
	next := &turn{wide: wideNetwork(address), name: name, isHot: isHot, granted: make(chan struct{})}
	t.mu.Lock()
	if t.waiting.Len() >= maxTurns {
		t.mu.Unlock()
		return &busyError{after: time.Second}
	}
	element := t.waiting.PushFront(next)
	t.serve()
	t.mu.Unlock()
	select {
	case <-next.granted: // without a timer, in most cases
		return nil
	default:
	}
	timer := time.NewTimer(turnTime)
	defer timer.Stop()
	var err error
	select {
	case <-next.granted:
		return nil
	case <-timer.C:
		err = &busyError{after: time.Second}
	case <-ctx.Done():
		err = ctx.Err()
	}
	t.mu.Lock()
	defer t.mu.Unlock()
	select {
	case <-next.granted: // meanwhile
		t.give()
	default:
		t.waiting.Remove(element)
	}
	return err
}

// release gives a processor back.
func (t *turns) release() {
	t.mu.Lock()
	defer t.mu.Unlock()
	t.give()
}

// give gives a processor back. The lock is held, as it is for what follows.
func (t *turns) give() {
	t.free++
	t.serve()
}

// serve grants what may run.
func (t *turns) serve() {
	t.expire()
	for t.free > 0 {
		element := t.next()
		if element == nil {
			return
		}
		next := t.waiting.Remove(element).(*turn)
		t.wides = t.wides.add(next.wide)
		t.names = t.names.add(next.name)
		t.free--
		close(next.granted)
	}
}

// next returns the check that is next, or nil if none may run.
func (t *turns) next() (first *list.Element) {
	for e := t.waiting.Front(); e != nil; e = e.Next() {
		it := e.Value.(*turn)
		if it.isHot && t.free <= t.cold {
			continue
		}
		if first == nil || t.isBefore(it, first.Value.(*turn)) {
			first = e
		}
	}
	return first
}

func (t *turns) isBefore(one, other *turn) bool {
	if one.isHot != other.isHot {
		return !one.isHot
	}
	return t.wides[one.wide]+t.names[one.name] < t.wides[other.wide]+t.names[other.name]
}

// expire halves the counts from time to time.
func (t *turns) expire() {
	now := t.now()
	if now.Sub(t.counted) < countTime {
		return
	}
	t.counted = now
	t.wides.halve()
	t.names.halve()
}

// A tally counts things.
type tally[K comparable] map[K]int

// add counts a thing. If there are too many, the others are forgotten.
func (t tally[K]) add(k K) tally[K] {
	if _, ok := t[k]; !ok && len(t) >= maxCounted {
		t = make(tally[K])
	}
	t[k]++
	return t
}

func (t tally[K]) halve() {
	for k, n := range t {
		if t[k] = n / 2; n < 2 {
			delete(t, k)
		}
	}
}

// wideNetwork returns the network that is one client for the turns: the first 24 bits of IPv4, or 48 of IPv6. One who
// has many addresses has them there.
func wideNetwork(address netip.Prefix) netip.Prefix {
	bits := 24
	if address.Addr().Is6() {
		bits = 48
	}
	wide, err := address.Addr().Prefix(bits)
	if err != nil {
		return netip.Prefix{}
	}
	return wide
}
