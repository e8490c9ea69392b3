package davd

import (
	"context"
	"errors"
	"os"
	"strings"
	"sync"
	"testing"
	"time"

	"davserve/internal/clock"
	"davserve/internal/frame"
)

// fakeClocks are those of a machine, which a test sets.
type fakeClocks struct {
	mu     sync.Mutex
	wall   time.Time
	steady time.Duration
}

func newFakeClocks() *fakeClocks {
	return &fakeClocks{wall: time.Date(2026, time.December, 1, 12, 0, 0, 0, time.UTC)}
}

func (c *fakeClocks) read() clock.Reading {
	c.mu.Lock()
	defer c.mu.Unlock()
	return clock.Reading{Wall: c.wall, Steady: c.steady}
}

// set lets time pass, and has the clock of the machine jump.
func (c *fakeClocks) set(passed, jump time.Duration) {
	c.mu.Lock()
	defer c.mu.Unlock()
	c.wall, c.steady = c.wall.Add(passed+jump), c.steady+passed
}

// at returns the seconds since 1970 of a time, beside that of new clocks.
func at(d time.Duration) uint64 {
	return uint64(newFakeClocks().wall.Add(d).Unix())
}

// asking are pauses with which the first davd is asked for the last time of its folder.
func asking() pauses {
	p := quickOver
	p.asks = true
	return p
}

// timeOf returns the time of a davd, which has a lock that expires a second later.
func timeOf(t *testing.T, e *Engine) uint64 {
	t.Helper()
	reply, err := e.Do(context.Background(), frame.NextExpiry{})
	expiry, ok := reply.(frame.Expiry)
	if err != nil || !ok || expiry.Time == nil {
		t.Fatalf("the reply is %v, %v", reply, err)
	}
	return *expiry.Time - 1
}

// While the clock of the machine jumps, the time of the batches goes on, and the log says so once.
func TestTheTimeOfBatchesDoesNotJump(t *testing.T) {
	for _, jump := range []time.Duration{50 * 365 * 24 * time.Hour, time.Hour, -time.Hour} {
		machine, said := newFakeClocks(), &logged{}
		t.Setenv(behavior, "sound")
		engine, err := Start(context.Background(), Config{Program: os.Args[0], Log: said.logger(), Machine: machine.read, pauses: quickOver})
		if err != nil {
			t.Fatal(err)
		}
		defer closeSoon(t, engine)
		for i := 0; i < 100; i++ {
			timeOf(t, engine)
		}
		machine.set(0, jump)
		for i := 0; i < 100; i++ {
			if got := timeOf(t, engine); got != at(0) {
				t.Fatalf("after a jump of %v it has jumped by %d seconds", jump, got-at(0))
			}
		}
		machine.set(time.Minute, -jump)
		if got := timeOf(t, engine); got != at(time.Minute) {
			t.Errorf("after a minute it is %d seconds further", got-at(0))
		}
		// There and back. The log may get its line after the reply.
		for end := time.Now().Add(10 * time.Second); strings.Count(said.String(), "has jumped") < 2 && time.Now().Before(end); {
			time.Sleep(time.Millisecond)
		}
		if lines := said.String(); strings.Count(lines, "has jumped") != 2 {
			t.Errorf("the log has:\n%s", lines)
		}
	}
}

// A davd that is started again gets the time of its engine, and not that of the machine.
func TestALaterDavdGetsTheTimeOfTheEngine(t *testing.T) {
	machine, said := newFakeClocks(), &logged{}
	t.Setenv(behavior, "ends after one")
	engine, err := Start(context.Background(), Config{Program: os.Args[0], Log: said.logger(), Machine: machine.read, pauses: pauses{first: time.Millisecond, greatest: 10 * time.Millisecond}})
	if err != nil {
		t.Fatal(err)
	}
	defer closeSoon(t, engine)
	machine.set(time.Hour, -2*time.Hour)
	for i := 0; i < 3; i++ { // Each davd answers one.
		if got := timeOf(t, engine); got != at(57*time.Minute) {
			t.Errorf("davd %d has a time of %d seconds further", i, got-at(0))
		}
	}
	if engine.Started() < 2 {
		t.Errorf("davd was started again %d times", engine.Started())
	}
}

func TestAStartGoesOnFromTheTimeOfTheFolder(t *testing.T) {
	const year = 365 * 24 * time.Hour
	for _, test := range []struct {
		name string
		acts string
		seen uint64 // the time of the folder
		log  string
		want uint64 // that of the first batch
	}{
		{"none", "sound", 0, "", at(0)},
		{"an earlier one", "sound", at(-time.Hour), "", at(0)},
		{"a year before", "sound", at(-year), "365 days ago", at(0)},
		{"an hour later", "sound", at(time.Hour), "1h0m0s behind the last change in the folder", at(time.Hour)},
		{"nine years later", "sound", at(9 * year), "behind the last change", at(9 * year)},
		{"no memory for the batch", "has no memory for a lock", at(time.Hour), "", at(time.Hour)},
		{"no memory for the frame", "fails the frame for the time", at(time.Hour), "", at(time.Hour)},
		{"a root with an exclusive lock", "has an exclusive lock of the root", at(time.Hour), "1h0m0s behind", at(time.Hour)},
		{"no lock", "has no lock", at(time.Hour), "", at(time.Hour)},
	} {
		t.Run(test.name, func(t *testing.T) {
			config, folder, said := overFolder(t, test.acts, asking())
			config.Machine = newFakeClocks().read
			folder.set("time", test.seen)
			engine, err := Start(context.Background(), config)
			if err != nil {
				t.Fatal(err)
			}
			defer closeSoon(t, engine)
			if got := timeOf(t, engine); got != test.want {
				t.Errorf("the time is %d seconds later than that of the machine", got-at(0))
			}
			lines := said.String()
			if test.log == "" && (strings.Contains(lines, "behind") || strings.Contains(lines, "ago")) || !strings.Contains(lines, test.log) {
				t.Errorf("the log has, without %q:\n%s", test.log, lines)
			}
		})
	}
}

func TestAFolderOfAnotherTimeIsRefused(t *testing.T) {
	const year = 365 * 24 * time.Hour
	for _, test := range []struct {
		name   string
		seen   time.Duration
		change time.Duration
		isFar  bool
	}{
		{"fifty years later", 50 * year, 0, true},
		{"not changed for eleven years", -11 * year, 0, true},
		{"a second more than the default", 10*year + time.Second, 0, true},
		{"as much as the default", 10 * year, 0, false},
		{"fifty years later, and they may", 50 * year, 60 * year, false},
		{"a day later, where an hour may", 24 * time.Hour, time.Hour, true},
		{"not changed for a day, where an hour may", -24 * time.Hour, time.Hour, true},
	} {
		t.Run(test.name, func(t *testing.T) {
			config, folder, said := overFolder(t, "sound", asking())
			config.Machine, config.MaxClockChange = newFakeClocks().read, test.change
			folder.set("time", at(test.seen))
			engine, err := Start(context.Background(), config)
			if engine != nil {
				defer closeSoon(t, engine)
			}
			var far *clock.FarError
			if errors.As(err, &far) != test.isFar || !test.isFar && err != nil {
				t.Fatalf("the error is %v\n%s", err, said)
			}
			if test.isFar && strings.Contains(err.Error(), "killed") {
				t.Errorf("the error has how davd ended: %v", err)
			}
		})
	}
}

func TestADavdThatEndsWhenItIsAskedForTheTimeCannotServe(t *testing.T) {
	config, _, _ := overFolder(t, "ends when it is asked for the time", asking())
	if _, err := Start(context.Background(), config); err == nil || !strings.Contains(err.Error(), "exit status 3") {
		t.Errorf("the error is %v", err)
	}
}
