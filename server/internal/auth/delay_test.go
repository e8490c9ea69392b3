package auth

import (
	"context"
	"errors"
	"fmt"
	"net/http"
	"net/netip"
	"reflect"
	"testing"
	"time"

	"davserve/internal/caller"
)

const (
	ms     = time.Millisecond
	second = time.Second
)

func TestDelays(t *testing.T) {
	f := newFixture(t, 64, entry("alice", hashOfUxU), entry("bob", hashOfUxUx))
	steps := []struct {
		after          time.Duration
		name, password string
		want           int
		delay          time.Duration
	}{
		{0, "bob", "U*U*", 200, 0},
		{0, "alice", "1", 401, 0},
		{0, "alice", "2", 401, 250 * ms},
		{0, "nobody", "3", 401, 500 * ms},
		{0, "alice", "4", 401, 1 * second},
		{0, "alice", "1", 401, 2 * second},
		{0, "alice", "6", 401, 4 * second},
		{0, "alice", "7", 401, 4 * second},
		{0, "bob", "U*U*", 200, 0},           // from the cache
		{0, "alice", "U*U", 200, 4 * second}, // a right password that is not in the cache
		{0, "alice", "U*U", 200, 0},          // and now it is
		{0, "alice", "10", 401, 4 * second},  // a right password changes nothing
		{10 * time.Minute, "bob", "U*U*", 200, 4 * second},
		{4 * time.Minute, "alice", "11", 401, 4 * second},
		{15*time.Minute - 1, "alice", "12", 401, 4 * second},
		{15 * time.Minute, "alice", "13", 401, 0}, // forgotten
		{0, "alice", "14", 401, 250 * ms},
	}
	for i, step := range steps {
		f.clock.advance(step.after)
		f.clock.slept = nil
		status := f.try(home, step.name, step.password)
		var delay time.Duration
		for _, d := range f.clock.slept {
			delay += d
		}
		if status != step.want || delay != step.delay {
			t.Errorf("step %d: status %d after %v, want %d after %v", i, status, delay, step.want, step.delay)
		}
	}
}

func TestDelayAfter(t *testing.T) {
	want := []time.Duration{0, 250 * ms, 500 * ms, second, 2 * second, 4 * second, 4 * second}
	for failures := 1; failures < len(want); failures++ {
		if got := delayAfter(failures); got != want[failures] {
			t.Errorf("after %d failures: %v, want %v", failures, got, want[failures])
		}
	}
	if got := delayAfter(1 << 30); got != 4*second {
		t.Errorf("after many failures: %v", got)
	}
}

func TestDelayAddresses(t *testing.T) {
	tests := []struct {
		failed, next string
		hot          bool
	}{
		{"192.0.2.1:1", "192.0.2.1:2", true},
		{"192.0.2.1:1", "192.0.2.2:1", false},
		{"192.0.2.1:1", "[::ffff:192.0.2.1]:1", true},
		{"192.0.2.1:1", "[::ffff:192.0.2.2]:1", false},
		{"[2001:db8::1]:1", "[2001:db8::ffff:0:0:2]:1", true},
		{"[2001:db8::1]:1", "[2001:db8:0:1::1]:1", false},
		{"[2001:db8::1]:1", "192.0.2.1:1", false},
		{"[fe80::1%eth0]:1", "[fe80::2%eth1]:1", true},
		{"", "@", true}, // no address
		{"", "192.0.2.1:1", false},
	}
	for _, test := range tests {
		f := newFixture(t, 64, entry("alice", hashOfUxU))
		f.try(test.failed, "alice", "wrong")
		f.try(test.next, "alice", "wrong again")
		if hot := len(f.clock.slept) == 1; hot != test.hot {
			t.Errorf("%s, %s: delayed %v", test.failed, test.next, f.clock.slept)
		}
	}
}

func TestDelayBound(t *testing.T) {
	clock := newFakeClock()
	d := newDelays(64, clock.now)
	address := func(i int) netip.Prefix {
		return caller.Network(netip.AddrFrom4([4]byte{10, 0, byte(i >> 8), byte(i)}))
	}
	hot := func(i int) bool {
		wait, leave, err := d.enter(address(i))
		if err != nil {
			t.Fatal(err)
		}
		leave()
		return wait > 0
	}
	for i := 0; i < 10000; i++ {
		d.failed(address(i))
	}
	d.failed(address(0)) // now address 1 failed least recently
	if !hot(1) {
		t.Error("10,000 addresses are too many")
	}
	d.failed(address(10000))
	if !hot(0) || hot(1) || !hot(2) || !hot(10000) {
		t.Error("not the oldest was forgotten")
	}
	if len(d.hot) != 10000 || d.order.Len() != 10000 {
		t.Errorf("%d addresses", len(d.hot))
	}
	clock.advance(hotTime)
	if hot(2) || len(d.hot) != 0 || d.order.Len() != 0 {
		t.Errorf("%d addresses after 15 minutes", len(d.hot))
	}
}

// A record that is forgotten while a request waits does not disturb the counts.
func TestDelayForgottenWhileWaiting(t *testing.T) {
	clock := newFakeClock()
	d := newDelays(8, clock.now)
	address := caller.Network(netip.MustParseAddr("192.0.2.1"))
	d.failed(address)
	_, leave, err := d.enter(address)
	if err != nil {
		t.Fatal(err)
	}
	clock.advance(hotTime)
	d.failed(address)
	leave()
	for i := 0; i < 2; i++ {
		if _, _, err := d.enter(address); err != nil {
			t.Errorf("request %d: %v", i, err)
		}
	}
	var busy *busyError
	if _, _, err := d.enter(address); !errors.As(err, &busy) {
		t.Errorf("request 2: %v", err)
	}
}

// A room holds requests that sleep until it opens.
type room struct {
	open    chan struct{}
	entered chan time.Duration
}

func newRoom() *room {
	return &room{open: make(chan struct{}), entered: make(chan time.Duration, 1000)}
}

func (r *room) sleep(ctx context.Context, d time.Duration) error {
	r.entered <- d
	select {
	case <-r.open:
		return nil
	case <-ctx.Done():
		return ctx.Err()
	}
}

// start serves a request in the background.
func (f *fixture) start(ctx context.Context, address, name, password string) <-chan int {
	status := make(chan int, 1)
	go func() { status <- f.serve(request(address, name, password).WithContext(ctx)).Code }()
	return status
}

// until waits for a condition.
func until(t *testing.T, what string, ok func() bool) {
	t.Helper()
	for start := time.Now(); !ok(); time.Sleep(time.Millisecond) {
		if time.Since(start) > 20*time.Second {
			t.Fatalf("not in time: %s", what)
		}
	}
}

func TestTooManyDelayed(t *testing.T) {
	f := newFixture(t, 8, entry("alice", hashOfUxU), entry("bob", hashOfUxUx))
	f.try("192.0.2.1:1", "bob", "U*U*") // into the cache
	for i := 1; i <= 5; i++ {
		f.try(fmt.Sprintf("192.0.2.%d:1", i), "alice", "wrong")
	}
	room := newRoom()
	f.Basic.clock.sleep = room.sleep
	var waiting []<-chan int
	for i := 1; i <= 4; i++ {
		for j := 0; j < 2; j++ {
			address := fmt.Sprintf("192.0.2.%d:1", i)
			waiting = append(waiting, f.start(context.Background(), address, "alice", fmt.Sprint(i, j)))
			<-room.entered
		}
		if i == 1 { // a quarter of 8 wait from this address
			f.expectBusy(t, request("192.0.2.1:2", "alice", "U*U"), "1")
		}
	}
	f.expectBusy(t, request("192.0.2.5:1", "alice", "x"), "1") // 8 wait
	if status := f.try("192.0.2.6:1", "alice", "U*U"); status != 200 {
		t.Errorf("another address: status %d", status)
	}
	if status := f.try("192.0.2.1:1", "bob", "U*U*"); status != 200 {
		t.Errorf("password in the cache: status %d", status)
	}
	close(room.open)
	for i, status := range waiting {
		if got := <-status; got != 401 {
			t.Errorf("request %d: status %d", i, got)
		}
	}
	if status := f.try("192.0.2.1:1", "alice", "y"); status != 401 {
		t.Errorf("after the others: status %d", status)
	}
	if f.delays.waiting != 0 {
		t.Errorf("%d wait", f.delays.waiting)
	}
}

func (f *fixture) expectBusy(t *testing.T, r *http.Request, retryAfter string) {
	t.Helper()
	w := f.serve(r)
	if w.Code != http.StatusTooManyRequests || w.Header().Get("Retry-After") != retryAfter {
		t.Errorf("status %d, Retry-After %q, want 429, %q", w.Code, w.Header().Get("Retry-After"), retryAfter)
	}
}

// After five failures the delay is 4 seconds, and so is Retry-After.
func TestRetryAfter(t *testing.T) {
	f := newFixture(t, 1, entry("alice", hashOfUxU))
	for i, want := range []string{"1", "1", "1", "2", "4", "4"} {
		if status := f.try(home, "alice", fmt.Sprint(i)); status != 401 {
			t.Fatalf("status %d", status)
		}
		room := newRoom()
		f.Basic.clock.sleep = room.sleep
		ctx, cancel := context.WithCancel(context.Background())
		waiting := f.start(ctx, home, "alice", "x")
		if d := <-room.entered; d != delayAfter(i+1) {
			t.Errorf("after %d failures: %v", i+1, d)
		}
		f.expectBusy(t, request(home, "alice", "U*U"), want)
		cancel()
		if status := <-waiting; status != 503 {
			t.Errorf("status %d of a request that has ended", status)
		}
		f.Basic.clock.sleep = f.clock.sleep
	}
	if n := f.checks(); n != 6 {
		t.Errorf("%d checks", n)
	}
}

// Many guesses that come at once, before the address is hot, are delayed or refused when the first has failed.
func TestBurst(t *testing.T) {
	const guesses = 40
	f := newFixture(t, 8, entry("alice", hashOfUxU))
	f.turns = newTurns(1, f.clock.now)
	first, begun := make(chan struct{}), make(chan struct{}, guesses)
	check := f.compare
	f.compare = func(hash, password []byte) error {
		begun <- struct{}{}
		<-first
		return check(hash, password)
	}
	room := newRoom()
	f.Basic.clock.sleep = room.sleep
	statuses := make(chan int, guesses)
	for i := 0; i < guesses; i++ {
		go func(i int) { statuses <- f.try(home, "alice", fmt.Sprint(i)) }(i)
	}
	<-begun
	until(t, "each guess is under way", func() bool {
		f.flights.mu.Lock()
		defer f.flights.mu.Unlock()
		return len(f.flights.calls) == guesses
	})
	close(first)
	for i := 0; i < 2; i++ { // a quarter of 8 may wait
		if d := <-room.entered; d != 250*ms {
			t.Errorf("delayed by %v", d)
		}
	}
	got := make(map[int]int)
	for i := 0; i < guesses-2; i++ {
		got[<-statuses]++
	}
	if want := map[int]int{401: 1, 429: guesses - 3}; !reflect.DeepEqual(got, want) {
		t.Errorf("statuses %v, want %v", got, want)
	}
	if n := f.checks(); n != 1 {
		t.Errorf("%d checks", n)
	}
	close(room.open)
	for i := 0; i < 2; i++ {
		if status := <-statuses; status != 401 {
			t.Errorf("status %d", status)
		}
	}
}

func TestSleep(t *testing.T) {
	start := time.Now()
	if err := sleep(context.Background(), 20*ms); err != nil || time.Since(start) < 20*ms {
		t.Errorf("%v after %v", err, time.Since(start))
	}
	ctx, cancel := context.WithCancel(context.Background())
	cancel()
	if err := sleep(ctx, time.Hour); err != context.Canceled {
		t.Error(err)
	}
}
