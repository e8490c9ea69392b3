package davserve

import (
	"net/http"
	"strings"
	"sync"
	"testing"
	"time"

	"davserve/internal/clock"
)

// fakeClocks are those of a machine, which a test sets.
type fakeClocks struct {
	mu     sync.Mutex
	wall   time.Time
	steady time.Duration
}

func (c *fakeClocks) read() clock.Reading {
	c.mu.Lock()
	defer c.mu.Unlock()
	return clock.Reading{Wall: c.wall, Steady: c.steady}
}

// set lets time pass, and has the clock of the machine jump.
func (c *fakeClocks) set(passed, jump time.Duration) {
	c.mu.Lock()
	defer c.mu.Unlock()
	c.wall, c.steady = c.wall.Add(passed+jump), c.steady+passed
}

// A lock of ten minutes ends in time, however the clock of the machine jumps, and a file gets the right time.
func TestLocksEndInTime(t *testing.T) {
	const year = 365 * 24 * time.Hour
	for _, test := range []struct {
		name  string
		jump  time.Duration
		least time.Duration // how long the lock holds at least
		until time.Duration // and when it has ended
	}{
		{"no jump", 0, 10*time.Minute - time.Second, 10 * time.Minute},
		{"an hour ahead", time.Hour, 9*time.Minute + 30*time.Second, 9*time.Minute + 33*time.Second},
		{"an hour back", -time.Hour, 10*time.Minute + 30*time.Second, 10*time.Minute + 33*time.Second},
		{"fifty years ahead", 50 * year, 10*time.Minute - time.Second, 10 * time.Minute},
		{"fifty years back", -50 * year, 10*time.Minute - time.Second, 10 * time.Minute},
	} {
		for _, folder := range []string{"", t.TempDir()} {
			t.Run(test.name+" "+folder, func(t *testing.T) {
				machine := &fakeClocks{wall: time.Date(2026, time.December, 1, 12, 0, 0, 0, time.UTC)}
				c := startServer(t, Options{Folder: folder, machine: machine.read})
				c.want(http.StatusCreated, "PUT", "/a", "one")
				c.want(http.StatusOK, "LOCK", "/a", lockBody)
				machine.set(0, test.jump)
				c.want(http.StatusLocked, "PUT", "/a", "two")
				response, _ := c.do("PUT", "/b", strings.NewReader("new"))
				if got := response.Header.Get("Last-Modified"); got != "Tue, 01 Dec 2026 12:00:00 GMT" {
					t.Errorf("a file has the time %q", got)
				}
				machine.set(test.least, 0)
				c.want(http.StatusLocked, "PUT", "/a", "two")
				machine.set(test.until-test.least, 0)
				c.want(http.StatusNoContent, "PUT", "/a", "two")
			})
		}
	}
}
