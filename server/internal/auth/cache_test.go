package auth

import (
	"fmt"
	"testing"
	"time"
)

func TestKey(t *testing.T) {
	s, err := newSecret()
	if err != nil {
		t.Fatal(err)
	}
	other, err := newSecret()
	if err != nil {
		t.Fatal(err)
	}
	base := s.key("alice", "secret", hashOfUxU)
	if base != s.key("alice", "secret", hashOfUxU) {
		t.Error("a key changes")
	}
	for _, k := range []key{
		s.key("alices", "ecret", hashOfUxU),
		s.key("alice", "secret"+hashOfUxU, ""),
		s.key("alice", "secret", hashOfUxUx),
		s.key("alice", "secret"),
		s.key("alice", "secret", hashOfUxU, ""),
		other.key("alice", "secret", hashOfUxU),
	} {
		if k == base {
			t.Error("two keys are equal")
		}
	}
}

func TestCacheTime(t *testing.T) {
	clock := newFakeClock()
	c := newCache(clock.now)
	a, b := key{1}, key{2}
	if c.has(a) {
		t.Error("an empty cache has a key")
	}
	c.add(a)
	clock.advance(time.Minute)
	c.add(b)
	clock.advance(4*time.Minute - 1)
	if !c.has(a) || !c.has(b) {
		t.Error("a key was removed early")
	}
	clock.advance(1)
	if c.has(a) || !c.has(b) || len(c.items) != 1 || c.order.Len() != 1 {
		t.Error("after 5 minutes a key is not removed")
	}
	c.add(b)
	clock.advance(5*time.Minute - 1)
	if !c.has(b) {
		t.Error("a key that was added again was removed early")
	}
	clock.advance(1)
	if c.has(b) {
		t.Error("a key that was added again was not removed")
	}
}

func TestCacheItems(t *testing.T) {
	clock := newFakeClock()
	c := newCache(clock.now)
	for i := 0; i < 4096+10; i++ {
		c.add(key{byte(i), byte(i >> 8)})
	}
	if len(c.items) != 4096 || c.order.Len() != 4096 {
		t.Errorf("%d keys", len(c.items))
	}
	for i, want := range map[int]bool{0: false, 9: false, 10: true, 4105: true} {
		if c.has(key{byte(i), byte(i >> 8)}) != want {
			t.Errorf("key %d: %v", i, !want)
		}
	}
}

// A right password is checked once in 5 minutes.
func TestChecksOnce(t *testing.T) {
	f := newFixture(t, 64, entry("alice", hashOfUxU), entry("bob", hashOfUxU))
	steps := []struct {
		after          time.Duration
		name, password string
		want, checks   int
	}{
		{0, "alice", "U*U", 200, 1},
		{0, "alice", "U*U", 200, 0},
		{time.Minute, "alice", "U*U", 200, 0},
		{0, "bob", "U*U", 200, 1}, // the same hash of another user
		{0, "alice", "wrong", 401, 1},
		{0, "alice", "wrong", 401, 1},
		{0, "alice", "U*U", 200, 0},
		{3 * time.Minute, "alice", "U*U", 200, 0},
		{time.Minute, "alice", "U*U", 200, 1},
		{0, "alice", "U*U", 200, 0},
		{0, "nobody", "U*U", 401, 1},
		{0, "nobody", "U*U", 401, 1},
	}
	for i, step := range steps {
		f.clock.advance(step.after)
		status := f.try(home, step.name, step.password)
		if checks := f.checks(); status != step.want || checks != step.checks {
			t.Errorf("step %d: status %d after %d checks, want %d after %d", i, status, checks, step.want, step.checks)
		}
	}
}

// A changed line counts at once, although the old password is in the cache.
func TestCacheFollowsFile(t *testing.T) {
	f := newFixture(t, 64, entry("alice", hashOfUxU))
	steps := []struct {
		file         string // written before
		password     string
		want, checks int
	}{
		{"", "U*U", 200, 1},
		{entry("bob", hashOfUxU) + "\n" + entry("alice", hashOfUxU), "U*U", 200, 0},
		{entry("alice", hashOfUxUx), "U*U", 401, 1},
		{"", "U*U*", 200, 1},
		{"", "U*U*", 200, 0},
		{entry("bob", hashOfUxU), "U*U*", 401, 1},
		{entry("alice", hashOfUxUx), "U*U*", 200, 0},
	}
	for i, step := range steps {
		if step.file != "" {
			f.write(t, step.file)
			f.clock.advance(checkInterval)
		}
		status := f.try(fmt.Sprintf("192.0.2.%d:1", i), "alice", step.password)
		if checks := f.checks(); status != step.want || checks != step.checks {
			t.Errorf("step %d: status %d after %d checks, want %d after %d", i, status, checks, step.want, step.checks)
		}
	}
}

// An unknown name costs what a known one costs.
func TestUnknownName(t *testing.T) {
	f := newFixture(t, 64, entry("alice", hashOfUxU))
	f.try("192.0.2.1:1", "alice", "wrong")
	f.try("192.0.2.2:1", "nobody", "wrong")
	if len(f.hashes) != 2 {
		t.Fatalf("%d checks", len(f.hashes))
	}
	for _, hash := range f.hashes {
		if cost, err := checkHash(hash); cost != 5 || err != nil {
			t.Errorf("hash %s: cost %d, %v", hash, cost, err)
		}
	}
	if f.delays.order.Len() != 2 {
		t.Errorf("%d addresses failed", f.delays.order.Len())
	}
}

// Not even a password of the false hash lets an unknown name in.
func TestUnknownNameNeverPasses(t *testing.T) {
	f := newFixture(t, 64, entry("alice", hashOfUxU))
	f.compare = func(hash, password []byte) error { return nil }
	if status := f.try(home, "nobody", "x"); status != 401 {
		t.Errorf("status %d", status)
	}
}

// A request missed the cache, and the check of another one ended before it could join it.
func TestCheckEndsMeanwhile(t *testing.T) {
	f := newFixture(t, 64, entry("alice", hashOfUxU))
	f.delays.now = func() time.Time {
		f.cache.add(f.secret.key("alice", "U*U", hashOfUxU))
		return f.clock.now()
	}
	if status := f.try(home, "alice", "U*U"); status != 200 {
		t.Errorf("status %d", status)
	}
	if n := f.checks(); n != 0 {
		t.Errorf("%d checks", n)
	}
}
