// Package clock has a time that goes on evenly, whatever happens to the clock of the machine.
//
// That clock may be wrong, and jumps when it is set: by NTP after a boot, by hand, or when a virtual machine goes on after a
// pause. Locks end by the time, and a store keeps the latest time that it got. So a jump ahead would end locks early, a
// jump back would keep them for longer, and a wrong time would stay in the store.
package clock

import (
	"sync"
	"time"
)

// MaxChange is how far the clock of the machine may be away by default, so that a Clock follows it: ten years. A store that
// was not changed for so long is rare. Wrong clocks often show 1970 or 2000, or 19.6 years too little (a receiver of GPS).
const MaxChange = 10 * 365 * 24 * time.Hour

const (
	// slope is the part of the time that passes by which a Clock is faster or slower, until it shows the time of the
	// machine. A lock of ten minutes lasts at least nine and a half then, and clients renew it 30 seconds before its end.
	slope = 20
	// notable is how far the clock of the machine jumps at least, so that it is logged. A leap second is less.
	notable = 2 * time.Second
)

// A Reading is what the clocks of a machine show.
type Reading struct {
	Wall   time.Time     // the time of day, which can be set
	Steady time.Duration // the time since some moment, which cannot be set
}

// A Clock begins with the time of the machine, and is carried on by its steady clock. Between two calls of Now as much time
// passes as by that one, or a twentieth more or less as long as the time of the machine is another one. So it never jumps.
// Its methods may be called at the same time.
type Clock struct {
	read   func() Reading
	change time.Duration // how far the machine may be away, so that it is followed

	mu     sync.Mutex
	now    time.Time
	steady time.Duration // when that was
	apart  time.Duration // how far ahead the time of the machine was then
	news   news
}

// New returns a clock that follows this machine as long as it is no further away than maxChange.
func New(maxChange time.Duration) *Clock {
	return Of(machine, maxChange)
}

// Of returns a clock that follows other readings than those of this machine.
func Of(read func() Reading, maxChange time.Duration) *Clock {
	first := read()
	return &Clock{read: read, change: maxChange, now: plain(first.Wall), steady: first.Steady}
}

// Now returns the time in whole seconds since 1970. It is never before an earlier one.
func (c *Clock) Now() uint64 {
	c.mu.Lock()
	defer c.mu.Unlock()
	c.advance()
	return seconds(c.now)
}

// Begin has a clock go on from the last time that a store has seen, in seconds since 1970, if that is later. It returns a
// line for the log if the two are far apart. If they are further apart than the clock follows, nothing changes, and the
// error is a *FarError.
func (c *Clock) Begin(seen uint64) (line string, err error) {
	c.mu.Lock()
	defer c.mu.Unlock()
	c.advance()
	last := timeOf(seen)
	ahead := last.Sub(c.now)
	if !c.follows(ahead) {
		return "", &FarError{Clock: c.now, Seen: last, Change: c.change}
	}
	if ahead > 0 {
		c.now, c.apart = last, c.apart-ahead
	}
	return begun(last, ahead), nil
}

// News returns a line for the log if the clock of the machine has jumped since the last one, and "" otherwise. There is at
// most one a minute.
func (c *Clock) News() string {
	c.mu.Lock()
	defer c.mu.Unlock()
	return c.news.line(c)
}

// advance carries the time on.
func (c *Clock) advance() {
	read := c.read()
	passed := read.Steady - c.steady
	c.now, c.steady = c.now.Add(passed), read.Steady
	apart := plain(read.Wall).Sub(c.now)
	c.news.add(apart - c.apart)
	if c.follows(apart) {
		step := atMost(apart, passed/slope)
		c.now, apart = c.now.Add(step), apart-step
	}
	c.apart = apart
}

// follows reports whether a time that is so far away is followed.
func (c *Clock) follows(apart time.Duration) bool {
	return -c.change <= apart && apart <= c.change
}

// atMost returns a duration, or the limit with its sign if it is longer.
func atMost(d, limit time.Duration) time.Duration {
	switch {
	case d > limit:
		return limit
	case d < -limit:
		return -limit
	}
	return d
}

// plain returns a time without the reading of a steady clock, by which Sub would compare otherwise.
func plain(t time.Time) time.Time {
	return t.Round(0)
}

// seconds returns a time in whole seconds since 1970, or 0 if it is earlier.
func seconds(t time.Time) uint64 {
	if s := t.Unix(); s > 0 {
		return uint64(s)
	}
	return 0
}

// timeOf returns the time of whole seconds since 1970. What is later than the year 9999 is its last second.
func timeOf(seconds uint64) time.Time {
	const last = 253402300799
	if seconds > last {
		seconds = last
	}
	return time.Unix(int64(seconds), 0)
}
