package auth

import (
	"context"
	"fmt"
	"net/http/httptest"
	"runtime"
	"sync"
	"testing"
	"time"

	"golang.org/x/crypto/bcrypt"
)

// 64 requests with one password that come at once cost one check.
func TestParallel(t *testing.T) {
	const all = 64
	tests := []struct {
		name, password string
		want           int
	}{
		{"alice", "U*U", 200},
		{"alice", "wrong", 401},
		{"nobody", "wrong", 401},
	}
	for _, test := range tests {
		f := newFixture(t, 64, entry("alice", hashOfUxU))
		processors := f.turns.free
		check, begun := f.compare, make(chan struct{}, all)
		joined := make(chan struct{})
		f.compare = func(hash, password []byte) error {
			begun <- struct{}{}
			<-joined
			return check(hash, password)
		}
		statuses := make(chan int, all)
		for i := 0; i < all; i++ {
			address := fmt.Sprintf("192.0.2.%d:1", i%8)
			go func() { statuses <- f.try(address, test.name, test.password) }()
		}
		<-begun
		until(t, "all requests wait for one check", func() bool { return f.waiting() == all })
		close(joined)
		for i := 0; i < all; i++ {
			if status := <-statuses; status != test.want {
				t.Errorf("%q, %q: status %d", test.name, test.password, status)
			}
		}
		if n := f.checks(); n != 1 {
			t.Errorf("%q, %q: %d checks", test.name, test.password, n)
		}
		if len(f.flights.calls) != 0 || f.turns.free != processors {
			t.Errorf("%q, %q: %d calls, %d processors", test.name, test.password, len(f.flights.calls), f.turns.free)
		}
	}
}

// waiting returns how many requests wait for a check.
func (f *fixture) waiting() int {
	f.flights.mu.Lock()
	defer f.flights.mu.Unlock()
	n := 0
	for _, c := range f.flights.calls {
		n += c.waiting
	}
	return n
}

// The same without waiting for each other, on a real server: whoever comes late finds the password in the cache.
func TestParallelServer(t *testing.T) {
	for round := 0; round < 20; round++ {
		f := newFixture(t, 64, entry("alice", hashOfUxU))
		server := httptest.NewServer(f.next)
		var wg sync.WaitGroup
		for i := 0; i < 64; i++ {
			wg.Add(1)
			go func() {
				defer wg.Done()
				r := request("", "alice", "U*U")
				r.RequestURI = ""
				var err error
				if r.URL, err = r.URL.Parse(server.URL); err != nil {
					t.Error(err)
					return
				}
				response, err := server.Client().Do(r)
				if err != nil {
					t.Error(err)
					return
				}
				response.Body.Close()
				if response.StatusCode != 200 {
					t.Errorf("status %d", response.StatusCode)
				}
			}()
		}
		wg.Wait()
		server.Close()
		if n := f.checks(); n != 1 {
			t.Fatalf("%d checks", n)
		}
	}
}

// The end of the request that came first does not disturb the others.
func TestFirstLeaves(t *testing.T) {
	f := newFixture(t, 64, entry("alice", hashOfUxU))
	begun, end := make(chan struct{}, 2), make(chan struct{})
	f.compare = func(hash, password []byte) error {
		begun <- struct{}{}
		<-end
		return bcrypt.CompareHashAndPassword(hash, password)
	}
	ctx, cancel := context.WithCancel(context.Background())
	first := f.start(ctx, home, "alice", "U*U")
	<-begun
	second := f.start(context.Background(), home, "alice", "U*U")
	until(t, "both wait", func() bool { return f.waiting() == 2 })
	cancel()
	if status := <-first; status != 503 {
		t.Errorf("the first: status %d", status)
	}
	close(end)
	if status := <-second; status != 200 {
		t.Errorf("the second: status %d", status)
	}
	if len(begun) != 0 {
		t.Error("two checks")
	}
}

// Requests that end while they wait for a processor cost no check, and are no failures.
func TestAllLeave(t *testing.T) {
	f := newFixture(t, 64, entry("alice", hashOfUxU))
	f.turns = newTurns(1, f.clock.now)
	if err := f.turns.acquire(context.Background(), of("192.0.2.1"), key{}, false); err != nil {
		t.Fatal(err)
	}
	ctx, cancel := context.WithCancel(context.Background())
	first, second := f.start(ctx, home, "alice", "U*U"), f.start(ctx, home, "alice", "wrong")
	until(t, "both wait", func() bool { return f.waiting() == 2 })
	cancel()
	for _, status := range []int{<-first, <-second} {
		if status != 503 {
			t.Errorf("status %d", status)
		}
	}
	f.turns.release()
	if n := f.checks(); n != 0 || f.delays.order.Len() != 0 {
		t.Errorf("%d checks, %d addresses failed", n, f.delays.order.Len())
	}
	if status := f.try(home, "alice", "U*U"); status != 200 {
		t.Errorf("a new request: status %d", status)
	}
}

// A check whose requests have ended still counts, if it had begun.
func TestLeaveDuringCheck(t *testing.T) {
	f := newFixture(t, 64, entry("alice", hashOfUxU))
	begun, end := make(chan struct{}, 1), make(chan struct{})
	f.compare = func(hash, password []byte) error {
		begun <- struct{}{}
		<-end
		return bcrypt.CompareHashAndPassword(hash, password)
	}
	ctx, cancel := context.WithCancel(context.Background())
	status := f.start(ctx, home, "alice", "wrong")
	<-begun
	cancel()
	if got := <-status; got != 503 {
		t.Errorf("status %d", got)
	}
	close(end)
	until(t, "the failure counts", func() bool {
		f.delays.mu.Lock()
		defer f.delays.mu.Unlock()
		return f.delays.order.Len() == 1
	})
}

// At most half of the processors check passwords.
func TestProcessors(t *testing.T) {
	most := runtime.NumCPU() / 2
	if most < 1 {
		most = 1
	}
	f := newFixture(t, 64, entry("alice", hashOfUxU))
	var mu sync.Mutex
	now, peak := 0, 0
	full := make(chan struct{}) // closed when most checks run
	count := func(by int) {
		mu.Lock()
		defer mu.Unlock()
		now += by
		if now > peak {
			peak = now
			if peak == most {
				close(full)
			}
		}
	}
	f.compare = func(hash, password []byte) error {
		count(1)
		defer count(-1)
		select {
		case <-full:
			time.Sleep(time.Millisecond)
		case <-time.After(10 * time.Second):
		}
		return bcrypt.ErrMismatchedHashAndPassword
	}
	var waiting []<-chan int
	for i := 0; i < 40; i++ {
		address := fmt.Sprintf("192.0.2.%d:1", i)
		waiting = append(waiting, f.start(context.Background(), address, "alice", fmt.Sprint(i)))
	}
	for _, status := range waiting {
		if got := <-status; got != 401 {
			t.Errorf("status %d", got)
		}
	}
	if peak != most {
		t.Errorf("%d checks at once, want %d", peak, most)
	}
}

// result is what a caller of do gets.
type result struct {
	ok  bool
	err error
}

// ask calls do in the background, with a function that waits for its context or for end.
func ask(ctx context.Context, f *flights, k key, begun chan<- context.Context, end <-chan bool) <-chan result {
	got := make(chan result, 1)
	go func() {
		ok, err := f.do(ctx, k, func(ctx context.Context) (bool, error) {
			begun <- ctx
			return <-end, ctx.Err()
		})
		got <- result{ok, err}
	}()
	return got
}

// waitingFor returns how many callers wait for the call with a key.
func (f *flights) waitingFor(k key) int {
	f.mu.Lock()
	defer f.mu.Unlock()
	if c, ok := f.calls[k]; ok {
		return c.waiting
	}
	return 0
}

// The context of a shared call ends with its last caller, not with its first.
func TestFlightContext(t *testing.T) {
	f := flights{calls: make(map[key]*call)}
	begun, end := make(chan context.Context, 2), make(chan bool)
	var cancels []context.CancelFunc
	var got []<-chan result
	for i := 1; i <= 3; i++ {
		ctx, cancel := context.WithCancel(context.Background())
		defer cancel()
		cancels = append(cancels, cancel)
		got = append(got, ask(ctx, &f, key{}, begun, end))
		until(t, "the callers wait", func() bool { return f.waitingFor(key{}) == i })
	}
	shared := <-begun
	for i := 0; i < 2; i++ {
		cancels[i]()
		if r := <-got[i]; r.err != context.Canceled {
			t.Errorf("caller %d: %v", i, r)
		}
		if shared.Err() != nil {
			t.Errorf("the call ended with caller %d", i)
		}
	}
	cancels[2]()
	<-got[2]
	select {
	case <-shared.Done():
	case <-time.After(10 * time.Second):
		t.Error("the call goes on without callers")
	}
	end <- true
	if len(begun) != 0 {
		t.Error("a second call")
	}
}

// A call that everybody left is not joined, and when it returns it leaves its successor alone.
func TestFlightAfterLeave(t *testing.T) {
	f := flights{calls: make(map[key]*call)}
	begun := make(chan context.Context, 3)
	ctx, cancel := context.WithCancel(context.Background())
	oldEnd, newEnd := make(chan bool), make(chan bool)
	old := ask(ctx, &f, key{}, begun, oldEnd)
	<-begun
	abandoned := f.calls[key{}]
	cancel()
	<-old

	first := ask(context.Background(), &f, key{}, begun, newEnd)
	if fresh := <-begun; fresh.Err() != nil {
		t.Error("a new caller got a context that had ended")
	}
	oldEnd <- true
	<-abandoned.done
	second := ask(context.Background(), &f, key{}, begun, newEnd)
	until(t, "the second caller joins", func() bool { return f.waitingFor(key{}) == 2 })
	newEnd <- true
	for _, got := range []<-chan result{first, second} {
		if r := <-got; !r.ok || r.err != nil {
			t.Errorf("a new caller got %v", r)
		}
	}
	if len(begun) != 0 || len(f.calls) != 0 {
		t.Errorf("%d more calls, %d left", len(begun), len(f.calls))
	}
}
