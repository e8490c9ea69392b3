package share

import (
	"context"
	"errors"
	"fmt"
	"math/rand"
	"sync"
	"testing"
	"time"
)

func TestShares(t *testing.T) {
	tests := []struct {
		total   int64
		percent int
		want    []int64 // what each of some clients gets, one after the other, if it takes all that it can
	}{
		{256, 50, []int64{128, 64, 32, 16, 8, 4, 2, 1, 1, 0}},
		{256, 100, []int64{256, 0}},
		{256, 75, []int64{192, 48, 12, 3, 1, 0}},
		{1, 50, []int64{1, 0}},
		{2, 50, []int64{1, 1, 0}},
		{3, 50, []int64{2, 1, 0}},
	}
	for _, test := range tests {
		t.Run(fmt.Sprintf("%d units, %d percent", test.total, test.percent), func(t *testing.T) {
			p := NewPool(test.total, test.percent, 1)
			for i, want := range test.want {
				got := int64(0)
				for ; got <= test.total; got++ {
					if _, err := p.Acquire(context.Background(), Key(fmt.Sprint(i)), 1, 0); err != nil {
						break
					}
				}
				if got != want {
					t.Errorf("client %d has %d units, want %d", i, got, want)
				}
			}
		})
	}
}

func TestLargerThanTheShare(t *testing.T) {
	p := NewPool(100, 50, 1)
	all, err := p.Acquire(context.Background(), "a", 1000, 0)
	if err != nil {
		t.Fatalf("a client alone gets no more than its share: %v", err)
	}
	if held, _ := p.Use(); held != 100 {
		t.Errorf("%d units are in use", held)
	}
	if _, err := p.Acquire(context.Background(), "b", 1, 0); !errors.Is(err, ErrBusy) {
		t.Errorf("another client: %v", err)
	}
	all.Shrink(10)
	if _, err := p.Acquire(context.Background(), "a", 50, 0); !errors.Is(err, ErrBusy) {
		t.Errorf("a second lease beyond the share: %v", err)
	}
	if err := all.Grow(500); err != nil {
		t.Errorf("the only lease of a client cannot grow: %v", err)
	}
	all.Release()
	all.Release()
	if held, _ := p.Use(); held != 0 || len(p.clients) != 0 {
		t.Errorf("%d units are in use, of %d clients", held, len(p.clients))
	}
	(*Lease)(nil).Release()
	(*Lease)(nil).Shrink(0)
}

// One client has its share and many calls that wait. Another one that comes later waits for none of these.
func TestTurns(t *testing.T) {
	p := NewPool(4, 100, 100)
	leases := take(t, p, "greedy", 4)
	order := make(chan Key, 20)
	var wg sync.WaitGroup
	wait := func(key Key, waiting int64) {
		wg.Add(1)
		go func() {
			defer wg.Done()
			l, err := p.Acquire(context.Background(), key, 1, time.Minute)
			if err != nil {
				t.Error(err)
				return
			}
			order <- key
			time.Sleep(time.Millisecond)
			l.Release()
		}()
		for _, now := p.Use(); now < waiting; _, now = p.Use() {
			time.Sleep(time.Millisecond)
		}
	}
	for i := int64(1); i <= 10; i++ {
		wait("greedy", i)
	}
	wait("modest", 11)
	leases[0].Release()
	if first := <-order; first != "modest" {
		t.Errorf("the first who is served is %s", first)
	}
	for _, l := range leases[1:] {
		l.Release()
	}
	wg.Wait()
	if held, waiting := p.Use(); held != 0 || waiting != 0 || len(p.clients) != 0 {
		t.Errorf("%d units are in use, %d wait, of %d clients", held, waiting, len(p.clients))
	}
}

// take takes units one by one.
func take(t *testing.T, p *Pool, key Key, n int) (leases []*Lease) {
	t.Helper()
	for i := 0; i < n; i++ {
		l, err := p.Acquire(context.Background(), key, 1, 0)
		if err != nil {
			t.Fatal(err)
		}
		leases = append(leases, l)
	}
	return leases
}

func TestQueue(t *testing.T) {
	p := NewPool(1, 50, 4)
	held := take(t, p, "a", 1)
	ctx, cancel := context.WithCancel(context.Background())
	var wg sync.WaitGroup
	for i := int64(0); i < 2; i++ {
		wg.Add(1)
		go func() {
			defer wg.Done()
			if _, err := p.Acquire(ctx, "a", 1, time.Minute); !errors.Is(err, context.Canceled) {
				t.Errorf("a call whose context has ended: %v", err)
			}
		}()
		for _, waiting := p.Use(); waiting <= i; _, waiting = p.Use() {
			time.Sleep(time.Millisecond)
		}
	}
	start := time.Now()
	if _, err := p.Acquire(ctx, "a", 1, time.Minute); !errors.Is(err, ErrBusy) || time.Since(start) > 10*time.Second {
		t.Errorf("a client that has its share of the queue: %v after %v", err, time.Since(start))
	}
	if _, err := p.Acquire(ctx, "b", 1, 20*time.Millisecond); !errors.Is(err, ErrBusy) {
		t.Errorf("the end of the patience: %v", err)
	}
	cancel()
	wg.Wait()
	held[0].Release()
	if _, err := p.Acquire(context.Background(), "b", 1, 0); err != nil {
		t.Errorf("calls that have left kept something: %v", err)
	}
}

// Many clients take, wait, grow and leave. At the end nothing is in use, and never more than there is.
func TestPoolRace(t *testing.T) {
	p := NewPool(20, 50, 40)
	var wg sync.WaitGroup
	for i := 0; i < 30; i++ {
		wg.Add(1)
		go func(seed int64) {
			defer wg.Done()
			random := rand.New(rand.NewSource(seed))
			for j := 0; j < 200; j++ {
				ctx, cancel := context.WithTimeout(context.Background(), time.Duration(random.Intn(500))*time.Microsecond)
				key := Key(fmt.Sprint(random.Intn(8)))
				if l, err := p.Acquire(ctx, key, 1+random.Int63n(4), time.Millisecond); err == nil {
					if held, _ := p.Use(); held > 20 || held < 1 {
						t.Errorf("%d units are in use", held)
					}
					_ = l.Grow(random.Int63n(3))
					l.Shrink(1)
					l.Release()
				}
				cancel()
			}
		}(int64(i))
	}
	wg.Wait()
	if held, waiting := p.Use(); held != 0 || waiting != 0 || len(p.clients) != 0 {
		t.Errorf("%d units are in use, %d wait, of %d clients", held, waiting, len(p.clients))
	}
}
