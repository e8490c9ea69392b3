package davserve

import (
	"context"
	"errors"
	"net/http"
	"sync"
	"sync/atomic"
	"testing"
	"time"
)

// exactly returns a function that returns n.
func exactly(n int64) func() (int64, error) {
	return func() (int64, error) { return n, nil }
}

func TestQuotaKeepsAnUpperBound(t *testing.T) {
	used, asked := int64(0), 0
	q := newQuota(100, func(context.Context) (int64, error) { asked++; return used, nil })
	reserve := func(n int64) error {
		release, err := q.reserve(context.Background(), n, exactly(n))
		if err == nil {
			release()
		}
		return err
	}
	if err := reserve(60); err != nil || asked != 0 {
		t.Fatalf("60 bytes of 100: %v, and davd was asked %d times", err, asked)
	}
	used = 60
	if err := reserve(50); err == nil || asked != 1 {
		t.Errorf("50 bytes beside 60 of 100: %v, and davd was asked %d times", err, asked)
	}
	used = 20 // Another request has removed 40 bytes.
	if err := reserve(80); err != nil || asked != 2 {
		t.Errorf("80 bytes beside 20 of 100: %v, and davd was asked %d times", err, asked)
	}
	used = 100
	if err := reserve(1); err == nil || asked != 3 {
		t.Errorf("1 byte beside 100 of 100: %v, and davd was asked %d times", err, asked)
	}
}

func TestQuotaAsksDavdOnlyWhenNoOtherWrites(t *testing.T) {
	used, asked := atomic.Int64{}, make(chan struct{}, 1)
	q := newQuota(100, func(context.Context) (int64, error) { asked <- struct{}{}; return used.Load(), nil })
	release, err := q.reserve(context.Background(), 60, exactly(60))
	if err != nil {
		t.Fatal(err)
	}
	done := make(chan error)
	go func() {
		release, err := q.reserve(context.Background(), 50, exactly(40))
		if err == nil {
			release()
		}
		done <- err
	}()
	select {
	case <-asked:
		t.Error("davd is asked while a request writes")
	case <-time.After(50 * time.Millisecond):
	}
	used.Store(60)
	release()
	if err := <-done; err != nil {
		t.Errorf("40 bytes beside 60 of 100: %v", err)
	}
}

func TestQuotaCountsARequestOnce(t *testing.T) {
	var used atomic.Int64
	q := newQuota(100, func(context.Context) (int64, error) { return used.Load(), nil })
	var served atomic.Int64
	var group sync.WaitGroup
	for i := 0; i < 32; i++ {
		group.Add(1)
		go func() {
			defer group.Done()
			release, err := q.reserve(context.Background(), 10, exactly(10))
			if err != nil {
				return
			}
			used.Add(10)
			time.Sleep(time.Millisecond) // davd has stored it, and its reply is under way.
			release()
			served.Add(1)
		}()
	}
	group.Wait()
	if served.Load() != 10 || used.Load() != 100 {
		t.Errorf("%d requests of 10 bytes were served, and %d bytes of 100 are used", served.Load(), used.Load())
	}
}

func TestQuotaPassesErrorsOn(t *testing.T) {
	want := errors.New("lost")
	fails := func() (int64, error) { return 0, want }
	q := newQuota(1, func(context.Context) (int64, error) { return fails() })
	for i := 0; i < 2; i++ { // The first leaves the quota free for the next.
		if _, err := q.reserve(context.Background(), 2, exactly(2)); !errors.Is(err, want) {
			t.Errorf("davd fails: %v", err)
		}
	}
	q = newQuota(1, usedBytes(0))
	for i := 0; i < 2; i++ {
		if _, err := q.reserve(context.Background(), 2, fails); !errors.Is(err, want) {
			t.Errorf("the exact length is not known: %v", err)
		}
	}
}

// usedBytes returns a function that says that n bytes are used.
func usedBytes(n int64) func(context.Context) (int64, error) {
	return func(context.Context) (int64, error) { return n, nil }
}

func TestPlaces(t *testing.T) {
	tests := []struct {
		method, name, value string
		offset              int64 // in a file of 100 bytes
	}{
		{"PUT", "", "", 0},
		{"PATCH", "X-Update-Range", "append", 100},
		{"PATCH", "X-Update-Range", "bytes=10-19", 10},
		{"PATCH", "X-Update-Range", "bytes=200-", 200},
		{"PATCH", "X-Update-Range", "bytes=-30", 70},
		{"PATCH", "X-Update-Range", "bytes=-300", 0},
		{"PATCH", "X-Update-Range", "bytes=x", 0},
		{"PUT", "Content-Range", "bytes 10-19/100", 10},
		{"PUT", "Content-Range", "bytes 10-19/*", 10},
		{"PUT", "X-Update-Range", "bytes=10-19", 0},
		{"PATCH", "Content-Range", "bytes 10-19/100", 10},
	}
	for _, test := range tests {
		header := http.Header{}
		if test.name != "" {
			header.Set(test.name, test.value)
		}
		if got := places(test.method, header).offset(100); got != test.offset {
			t.Errorf("%s: %s begins at %d, want %d", test.name, test.value, got, test.offset)
		}
	}
	both := http.Header{"X-Update-Range": {"bytes=10-19"}, "Content-Range": {"bytes 900-909/*"}}
	if got := places("PATCH", both).offset(100); got != 900 {
		t.Errorf("a PATCH with both begins at %d, want 900", got)
	}
}
