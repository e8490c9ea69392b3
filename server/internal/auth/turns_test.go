package auth

import (
	"context"
	"errors"
	"fmt"
	"net/netip"
	"strings"
	"testing"
	"time"

	"davserve/internal/caller"
)

// of returns the address that counts failures for an address. A name may follow that.
func of(address string) netip.Prefix {
	address, _, _ = strings.Cut(address, " ")
	return caller.Network(netip.MustParseAddr(address))
}

// name returns what counts for the name behind an address. Without one it is that of the address.
func name(address string) (k key) {
	if _, name, ok := strings.Cut(address, " "); ok {
		address = name
	}
	copy(k[:], address)
	return k
}

// queue has calls wait for a processor, one after the other. What it returns gets their names in the order in which they
// are served.
func queue(t *testing.T, turns *turns, addresses []string, isHot bool, served chan string) {
	t.Helper()
	for _, address := range addresses {
		address := address
		turns.mu.Lock()
		before := turns.waiting.Len()
		turns.mu.Unlock()
		go func() {
			if err := turns.acquire(context.Background(), of(address), name(address), isHot); err != nil {
				t.Error(err)
			}
			served <- address
		}()
		until(t, "it waits", func() bool {
			turns.mu.Lock()
			defer turns.mu.Unlock()
			return turns.waiting.Len() == before+1
		})
	}
}

func TestTurns(t *testing.T) {
	tests := []struct {
		name      string
		cold, hot []string // who comes, in this order, first all that have failed lately
		want      []string
	}{
		{"the newest first", []string{"10.0.0.1", "10.0.1.1", "10.0.2.1"}, nil,
			[]string{"10.0.2.1", "10.0.1.1", "10.0.0.1"}},
		{"in turn by network", []string{"10.0.0.1", "10.0.1.1", "10.0.1.2", "10.0.1.3"}, nil,
			[]string{"10.0.1.3", "10.0.0.1", "10.0.1.2", "10.0.1.1"}},
		{"IPv6 by 48 bits", []string{"2001:db8:1::1", "2001:db8:2:1::1", "2001:db8:2:2::1"}, nil,
			[]string{"2001:db8:2:2::1", "2001:db8:1::1", "2001:db8:2:1::1"}},
		{"one name from many networks", []string{"10.0.0.1 bob", "10.0.1.1 alice", "10.0.2.1 alice", "10.0.3.1 alice"}, nil,
			[]string{"10.0.3.1 alice", "10.0.0.1 bob", "10.0.2.1 alice", "10.0.1.1 alice"}},
		{"who has failed comes last", []string{"10.0.0.1"}, []string{"10.0.1.1", "10.0.2.1"},
			[]string{"10.0.0.1", "10.0.2.1", "10.0.1.1"}},
	}
	for _, test := range tests {
		t.Run(test.name, func(t *testing.T) {
			turns := newTurns(1, newFakeClock().now)
			if err := turns.acquire(context.Background(), of("192.0.2.1"), key{}, false); err != nil {
				t.Fatal(err)
			}
			served := make(chan string)
			queue(t, turns, test.hot, true, served)
			queue(t, turns, test.cold, false, served)
			for i, want := range test.want {
				turns.release()
				if got := <-served; got != want {
					t.Errorf("%d: %s is served, want %s", i, got, want)
				}
			}
		})
	}
}

// Addresses that have failed leave a processor to others.
func TestTurnsLeaveAProcessor(t *testing.T) {
	turns := newTurns(2, newFakeClock().now)
	served := make(chan string, 3)
	if err := turns.acquire(context.Background(), of("10.0.0.1"), key{}, true); err != nil {
		t.Fatal(err)
	}
	queue(t, turns, []string{"10.0.0.2"}, true, served)
	if err := turns.acquire(context.Background(), of("10.0.0.3"), key{}, false); err != nil {
		t.Fatal(err)
	}
	turns.release()
	select {
	case got := <-served:
		t.Errorf("%s has the last processor", got)
	case <-time.After(20 * ms):
	}
	turns.release()
	<-served
}

func TestTurnsAreBounded(t *testing.T) {
	turns := newTurns(1, newFakeClock().now)
	if err := turns.acquire(context.Background(), of("10.0.0.1"), key{}, false); err != nil {
		t.Fatal(err)
	}
	ctx, cancel := context.WithCancel(context.Background())
	left := make(chan error, maxTurns)
	for i := 0; i < maxTurns; i++ {
		go func() { left <- turns.acquire(ctx, of("10.0.0.2"), key{}, false) }()
	}
	until(t, "all wait", func() bool {
		turns.mu.Lock()
		defer turns.mu.Unlock()
		return turns.waiting.Len() == maxTurns
	})
	var busy *busyError
	if err := turns.acquire(ctx, of("10.0.0.3"), key{}, false); !errors.As(err, &busy) {
		t.Errorf("one more: %v", err)
	}
	cancel()
	for i := 0; i < maxTurns; i++ {
		if err := <-left; !errors.Is(err, context.Canceled) {
			t.Fatal(err)
		}
	}
	turns.release()
	if turns.waiting.Len() != 0 || turns.free != 1 {
		t.Errorf("%d wait, %d processors are free", turns.waiting.Len(), turns.free)
	}
}

func TestTurnsForget(t *testing.T) {
	clock := newFakeClock()
	turns := newTurns(1, clock.now)
	for i := 0; i < maxCounted+10; i++ {
		address := caller.Network(netip.AddrFrom4([4]byte{10, byte(i >> 8), byte(i), 1}))
		if err := turns.acquire(context.Background(), address, key{}, false); err != nil {
			t.Fatal(err)
		}
		turns.release()
	}
	if n := len(turns.wides); n > maxCounted {
		t.Errorf("%d networks are counted", n)
	}
	for i := 0; i < 20; i++ {
		clock.advance(countTime)
		turns.mu.Lock()
		turns.serve()
		turns.mu.Unlock()
	}
	if n := len(turns.wides) + len(turns.names); n != 0 {
		t.Errorf("%d networks are still counted", n)
	}
}

// While 250 addresses try wrong passwords, another user logs in for the first time in the time of a few checks.
func TestFirstLoginDuringAttack(t *testing.T) {
	const check = 10 * ms // of a password
	f := newFixture(t, 64, entry("alice", hashOfUxU), entry("bob", hashOfUxU))
	f.Basic.clock = systemClock()
	f.turns = newTurns(2, time.Now)
	f.compare = func(hash, password []byte) error {
		time.Sleep(check)
		if string(password) == "U*U" {
			return nil
		}
		return errNobody
	}
	done := make(chan int, 250)
	for i := 0; i < 250; i++ {
		go func(i int) { done <- f.try(fmt.Sprintf("10.%d.%d.1:5000", i/200, i%200), "alice", fmt.Sprint(i)) }(i)
	}
	until(t, "they wait", func() bool {
		f.turns.mu.Lock()
		defer f.turns.mu.Unlock()
		return f.turns.waiting.Len() > 150
	})
	start := time.Now()
	if status := f.try("192.0.2.1:5000", "bob", "U*U"); status != 200 {
		t.Errorf("status %d", status)
	}
	if d := time.Since(start); d > 30*check {
		t.Errorf("the first login took %v, the time of %d checks", d, d/check)
	}
	for i := 0; i < 250; i++ {
		if status := <-done; status != 401 {
			t.Errorf("status %d of a wrong password", status)
		}
	}
}
