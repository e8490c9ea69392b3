package scrub

import (
	"context"
	"errors"
	"fmt"
	"reflect"
	"strings"
	"testing"
	"time"

	"davserve/internal/davd"
)

// failing returns a function that has a frame fail with an error, so many times.
func failing(frame string, err error, times int) func(*fake, string) error {
	return func(f *fake, what string) error {
		if what == frame && f.asked[what] <= times {
			return err
		}
		return nil
	}
}

// changing returns a function that changes a store before a frame, so many times.
func changing(frame string, times int, change func(*fake)) func(*fake, string) error {
	return func(f *fake, what string) error {
		if what == frame && f.asked[what] <= times {
			change(f)
		}
		return nil
	}
}

func status(n int) error { return &davd.StatusError{Status: n} }

const (
	always = 1 << 30
	second = "READ /long 262144" // the second part of a file
)

func TestRun(t *testing.T) {
	write := func(f *fake) { f.add("/long", 3*piece+1) }
	tests := []struct {
		name   string
		before func(*fake, string) error
		files  int64 // that are right, of /a, /d/b, /d/e/c and /long
		found  []string
	}{
		{"all is right", nil, 4, nil},
		{"a file is damaged", failing("READ /d/b 0", status(500), always), 3, []string{"damaged /d/b"}},
		{"a file is damaged in a part", failing(second, status(500), always), 3, []string{"damaged /long"}},
		{"a file changes once", changing(second, 1, write), 4, nil},
		{"a file changes twice", changing(second, 2, write), 4, nil},
		{"a file changes each time", changing(second, always, write), 3, []string{"changed /long"}},
		{"a file grows", changing(second, 1, func(f *fake) { f.add("/long", 9*piece) }), 4, nil},
		{"a file becomes empty", changing(second, 1, func(f *fake) { f.add("/long", 0) }), 4, nil},
		{"a file vanishes while it is read", changing(second, 1, func(f *fake) { f.remove("/long") }), 3, nil},
		{"a file vanishes before it is read", changing("READ /d/b 0", 1, func(f *fake) { f.remove("/d/b") }), 3, nil},
		{"a file is moved to what is listed later", changing("READ /d/b 0", 1, func(f *fake) {
			f.remove("/d/b")
			f.add("/d/e/b", 10)
		}), 4, nil},
		{"a file becomes a collection", changing("READ /a 0", 1, func(f *fake) {
			f.remove("/a")
			f.add("/a/", 0)
		}), 3, nil},
		{"a collection vanishes", changing("LIST /d/e/", 1, func(f *fake) { delete(f.below, "/d/e/") }), 3, nil},
		{"a collection cannot be listed", failing("LIST /d/e/", status(500), always), 3, []string{
			"unread /d/e/ its members are not listed: status 500",
		}},
		{"a file may not be read", failing("READ /a 0", status(403), always), 3, []string{"unread /a status 403"}},
		{"davd is away for a while", failing("READ /a 0", davd.ErrDown, 20), 4, nil},
		{"davd ends once", failing(second, davd.ErrLost, 1), 4, nil},
		{"davd ends once while it lists", failing("LIST /d/", davd.ErrUnknown, 2), 4, nil},
		{"davd has no memory for a while", failing(second, status(507), shortages), 4, nil},
		{"davd has no memory for a list", failing("LIST /d/e/", status(507), always), 3, []string{
			"unread /d/e/ its members are not listed: status 507",
		}},
	}
	for _, test := range tests {
		t.Run(test.name, func(t *testing.T) {
			f := newFake("/a", "/d/b", "/d/e/c")
			f.add("/long", 3*piece+1)
			f.before = test.before
			got := check(context.Background(), f, quick)
			if got.err != nil || got.counts.Files != test.files || !reflect.DeepEqual(got.found, test.found) {
				t.Errorf("%+v, want %d files and %q", got, test.files, test.found)
			}
			if reported := got.counts.Damaged + got.counts.Changed + got.counts.Unread; int(reported) != len(test.found) {
				t.Errorf("the counts are %+v", got.counts)
			}
			if n := f.asked["READ /long 0"]; n > attempts {
				t.Errorf("/long was read %d times", n)
			}
		})
	}
}

func TestRunCountsBytes(t *testing.T) {
	f := newFake()
	total := int64(0)
	for i, length := range []uint64{0, 1, piece - 1, piece, piece + 1, 5 * piece} {
		f.add(fmt.Sprint("/", i), length)
		total += int64(length)
	}
	if got := check(context.Background(), f, quick); got.err != nil || got.counts != (Counts{Files: 6, Bytes: total}) {
		t.Errorf("%+v, want 6 files and %d bytes", got, total)
	}
}

func TestRunEndsEarly(t *testing.T) {
	hasty := limits{names: 1 << 20, pause: time.Millisecond, patience: 20 * time.Millisecond}
	strange := errors.New("strange")
	tests := []struct {
		name   string
		before func(*fake, string) error
		want   error
		says   string
	}{
		{"davd does not come back", failing("READ /b 0", davd.ErrDown, always), davd.ErrDown, ""},
		{"davd ends each time", failing("READ /b 0", davd.ErrLost, always), davd.ErrLost, `3 times while it read "/b"`},
		{"the engine is closed", failing("READ /b 0", davd.ErrClosed, always), davd.ErrClosed, ""},
		{"something else", failing("READ /b 0", strange, always), strange, ""},
		{"the list fails", failing("LIST /", strange, always), strange, ""},
	}
	for _, test := range tests {
		f := newFake("/a", "/b", "/c")
		f.before = test.before
		got := check(context.Background(), f, hasty)
		if !errors.Is(got.err, test.want) || !strings.Contains(fmt.Sprint(got.err), test.says) {
			t.Errorf("%s: %v", test.name, got.err)
		}
		if f.asked["READ /c 0"] > 0 {
			t.Errorf("%s: the next file was read", test.name)
		}
	}
}

func TestMemoryThatDoesNotComeBackIsNoDamage(t *testing.T) {
	f := newFake("/a", "/b")
	f.before = failing("READ /a 0", status(507), always)
	got := check(context.Background(), f, quick)
	if got.err != nil || got.counts != (Counts{Files: 1, Bytes: 10, Unread: 1}) {
		t.Errorf("%+v", got)
	}
	if n := f.asked["READ /a 0"]; n != shortages+1 {
		t.Errorf("it was read %d times", n)
	}
}

func TestTheContextEndsARun(t *testing.T) {
	for _, slow := range []bool{false, true} {
		ctx, cancel := context.WithCancel(context.Background())
		f := newFake("/a", "/b", "/c")
		f.before = changing("READ /b 0", 1, func(*fake) { cancel() })
		if slow {
			f.before = func(f *fake, what string) error {
				if what == "READ /b 0" {
					cancel()
					return davd.ErrDown
				}
				return nil
			}
		}
		if got := check(ctx, f, quick); !errors.Is(got.err, context.Canceled) || f.asked["READ /c 0"] > 0 {
			t.Errorf("%+v", got)
		}
	}
}

func TestTheRateIsKept(t *testing.T) {
	f := newFake()
	f.add("/a", 10*piece)
	began := time.Now()
	if err := Run(context.Background(), Options{Store: f, Path: "/", Rate: 40 * piece, limits: quick}); err != nil {
		t.Fatal(err)
	}
	if took := time.Since(began); took < 240*time.Millisecond || took > 20*time.Second {
		t.Errorf("10 parts took %v at 40 a second", took)
	}
}

func TestItYieldsButNotForEver(t *testing.T) {
	f := newFake("/a")
	f.busy = always
	began := time.Now()
	if got := check(context.Background(), f, quick); got.counts.Files != 1 {
		t.Errorf("%+v", got)
	}
	if took := time.Since(began); took < 2*yieldMost {
		t.Errorf("two frames took %v beside others", took)
	}
}

func TestProgressIsShown(t *testing.T) {
	f := newFake("/a", "/b")
	ticks := 0
	if err := Run(context.Background(), Options{Store: f, Path: "/", Tick: func() { ticks++ }, limits: quick}); err != nil {
		t.Fatal(err)
	}
	if ticks != 4 { // at the begin, and after the list and two files
		t.Errorf("%d ticks", ticks)
	}
}
