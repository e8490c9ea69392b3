package auth

import (
	"bytes"
	"context"
	"errors"
	"io/fs"
	"log"
	"os"
	"path/filepath"
	"strings"
	"sync"
	"testing"
	"time"
)

// A fakeClock moves when a test says so, and when somebody sleeps.
type fakeClock struct {
	mu    sync.Mutex
	time  time.Time
	slept []time.Duration
}

func newFakeClock() *fakeClock {
	return &fakeClock{time: time.Date(2024, 1, 1, 0, 0, 0, 0, time.UTC)}
}

func (c *fakeClock) now() time.Time {
	c.mu.Lock()
	defer c.mu.Unlock()
	return c.time
}

func (c *fakeClock) advance(d time.Duration) {
	c.mu.Lock()
	defer c.mu.Unlock()
	c.time = c.time.Add(d)
}

// sleep passes the time at once.
func (c *fakeClock) sleep(ctx context.Context, d time.Duration) error {
	c.mu.Lock()
	defer c.mu.Unlock()
	c.time = c.time.Add(d)
	c.slept = append(c.slept, d)
	return ctx.Err()
}

// writeFile replaces the content of a file in place, and sets its time.
func writeFile(path, content string, modified time.Time) error {
	if err := os.WriteFile(path, []byte(content), 0o600); err != nil {
		return err
	}
	return os.Chtimes(path, modified, modified)
}

func write(t *testing.T, path, content string, modified time.Time) {
	t.Helper()
	if err := writeFile(path, content, modified); err != nil {
		t.Fatal(err)
	}
}

// names returns the names of the present users, in order.
func names(u *Users) string {
	var names []string
	for _, name := range []string{"alice", "bob", "carol"} {
		if _, ok := u.current().hashes[name]; ok {
			names = append(names, name)
		}
	}
	return strings.Join(names, " ")
}

func line(name string) string {
	return name + ":" + hashOfUxU + "\n"
}

func TestLoadErrors(t *testing.T) {
	dir := t.TempDir()
	broken := filepath.Join(dir, "broken")
	write(t, broken, line("alice")+"bob:secret\n", time.Now())
	large := filepath.Join(dir, "large")
	write(t, large, strings.Repeat("#\n", 8<<20)+"#", time.Now())
	tests := []struct {
		path, want string
	}{
		{filepath.Join(dir, "missing"), "no such file"},
		{dir, "not a regular file"},
		{broken, broken + ": line 2: "},
		{large, "more than 16777216 bytes"},
	}
	for _, test := range tests {
		u, err := Load(test.path)
		if u != nil || err == nil || !strings.Contains(err.Error(), test.want) {
			t.Errorf("%s: %v", test.path, err)
		}
	}
	if _, err := Load(filepath.Join(dir, "missing")); !errors.Is(err, fs.ErrNotExist) {
		t.Errorf("missing: %v", err)
	}
}

// loaded returns the users of a file with alice that changed an hour ago, and what they log.
func loaded(t *testing.T) (u *Users, clock *fakeClock, logged *bytes.Buffer) {
	t.Helper()
	clock = newFakeClock()
	path := filepath.Join(t.TempDir(), "users")
	write(t, path, line("alice"), clock.now().Add(-time.Hour))
	u, err := load(path, clock.now)
	if err != nil {
		t.Fatal(err)
	}
	logged = new(bytes.Buffer)
	u.Log = log.New(logged, "", 0)
	return u, clock, logged
}

func TestReload(t *testing.T) {
	tests := []struct {
		name   string
		change func(t *testing.T, path string, old time.Time)
		want   string
	}{
		{"nothing", func(t *testing.T, path string, old time.Time) {}, "alice"},
		{"time and size", func(t *testing.T, path string, old time.Time) {
			write(t, path, line("alice")+line("bob"), old.Add(time.Minute))
		}, "alice bob"},
		{"time", func(t *testing.T, path string, old time.Time) {
			write(t, path, line("carol"), old.Add(time.Nanosecond))
		}, "carol"},
		{"size", func(t *testing.T, path string, old time.Time) { write(t, path, line("bob"), old) }, "bob"},
		{"inode", func(t *testing.T, path string, old time.Time) {
			write(t, path+".new", line("carol"), old)
			if err := os.Rename(path+".new", path); err != nil {
				t.Fatal(err)
			}
		}, "carol"},
		{"emptied", func(t *testing.T, path string, old time.Time) { write(t, path, "", old) }, ""},
		{"removed", func(t *testing.T, path string, old time.Time) { os.Remove(path) }, "alice"},
		{"broken", func(t *testing.T, path string, old time.Time) {
			write(t, path, line("bob")+"alice", old)
		}, "alice"},
	}
	for _, test := range tests {
		t.Run(test.name, func(t *testing.T) {
			u, clock, _ := loaded(t)
			test.change(t, u.path, clock.now().Add(-time.Hour))
			clock.advance(checkInterval - 1)
			if got := names(u); got != "alice" {
				t.Errorf("within a second: %q", got)
			}
			clock.advance(1)
			if got := names(u); got != test.want {
				t.Errorf("after a second: %q, want %q", got, test.want)
			}
		})
	}
}

func TestReloadFailure(t *testing.T) {
	u, clock, logged := loaded(t)
	old := clock.now().Add(-time.Hour)
	steps := []struct {
		name, file string // file - removes it
		want       string
		lines      int // logged so far
	}{
		{"good", line("alice"), "alice", 0},
		{"broken", line("bob") + "carol:secret\n", "alice", 1},
		{"still broken", line("bob") + "carol:secret\n", "alice", 1},
		{"broken in the same way", line("alice") + "carol:public\n", "alice", 1},
		{"broken elsewhere", "carol:secret\n", "alice", 2},
		{"removed", "-", "alice", 3},
		{"still removed", "-", "alice", 3},
		{"good again", line("bob"), "bob", 3},
		{"removed again", "-", "bob", 4},
		{"as before", line("bob"), "bob", 4},
	}
	for _, step := range steps {
		if step.file == "-" {
			os.Remove(u.path)
		} else {
			write(t, u.path, step.file, old)
		}
		clock.advance(checkInterval)
		if got := names(u); got != step.want {
			t.Errorf("%s: %q, want %q", step.name, got, step.want)
		}
		if got := strings.Count(logged.String(), "\n"); got != step.lines {
			t.Errorf("%s: %d lines, want %d", step.name, got, step.lines)
		}
	}
	if got := logged.String(); !strings.Contains(got, "line 2") || strings.Contains(got, "secret") {
		t.Errorf("logged %s", got)
	}
}

// Each check, not only the first, is a second after the one before.
func TestReloadInterval(t *testing.T) {
	u, clock, _ := loaded(t)
	old := clock.now().Add(-time.Hour)
	clock.advance(checkInterval)
	names(u)
	write(t, u.path, line("alice")+line("bob"), old)
	clock.advance(checkInterval - 1)
	if got := names(u); got != "alice" {
		t.Errorf("within a second of a check: %q", got)
	}
	clock.advance(1)
	if got := names(u); got != "alice bob" {
		t.Errorf("a second after a check: %q", got)
	}
}

// A file that is away, comes back unchanged and is away again fails twice.
func TestReloadMovedAway(t *testing.T) {
	u, clock, logged := loaded(t)
	for i, want := range []int{1, 1, 2, 2} {
		from, to := u.path, u.path+".away"
		if i%2 == 1 {
			from, to = to, from
		}
		if err := os.Rename(from, to); err != nil {
			t.Fatal(err)
		}
		clock.advance(checkInterval)
		if got := names(u); got != "alice" {
			t.Errorf("step %d: %q", i, got)
		}
		if got := strings.Count(logged.String(), "\n"); got != want {
			t.Errorf("step %d: %d lines, want %d", i, got, want)
		}
	}
}

// Two changes at nearly the same time leave the same time, size and inode.
func TestReloadUnsettled(t *testing.T) {
	u, clock, _ := loaded(t)
	clock.advance(checkInterval)
	changed := clock.now()
	write(t, u.path, line("carol"), changed)
	if got := names(u); got != "carol" {
		t.Errorf("after the first change: %q", got)
	}
	write(t, u.path, line("alice"), changed)
	clock.advance(checkInterval)
	if got := names(u); got != "alice" {
		t.Errorf("after the second change: %q", got)
	}
}

// The default logger gets errors, and requests may come from many goroutines.
func TestUsersRace(t *testing.T) {
	path := filepath.Join(t.TempDir(), "users")
	write(t, path, line("alice"), time.Now())
	var mu sync.Mutex
	now := time.Now()
	u, err := load(path, func() time.Time {
		mu.Lock()
		defer mu.Unlock()
		now = now.Add(checkInterval)
		return now
	})
	if err != nil {
		t.Fatal(err)
	}
	var b bytes.Buffer
	log.SetOutput(&b)
	defer log.SetOutput(os.Stderr)
	var wg sync.WaitGroup
	for i := 0; i < 8; i++ {
		wg.Add(1)
		go func(i int) {
			defer wg.Done()
			for j := 0; j < 50; j++ {
				if i == 0 && j == 25 {
					os.Remove(path)
				}
				if got := names(u); got != "alice" {
					t.Errorf("%q", got)
				}
			}
		}(i)
	}
	wg.Wait()
	if got := strings.Count(b.String(), "no such file"); got != 1 {
		t.Errorf("logged %q", b.String())
	}
}
