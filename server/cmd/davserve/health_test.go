package main

import (
	"context"
	"errors"
	"fmt"
	"net/http"
	"net/http/httptest"
	"sync/atomic"
	"testing"
	"time"
)

// healthOf returns the health of a config, at which each request has the remote address that its header names.
func healthOf(t *testing.T, check func(context.Context) error) http.Handler {
	t.Helper()
	c, err := parse(nil, httptest.NewRecorder().Body)
	if err != nil {
		t.Fatal(err)
	}
	return (&health{check: check}).handler(c.newLimits())
}

func askHealth(h http.Handler, remote string) int {
	r, w := httptest.NewRequest("GET", healthPath, nil), httptest.NewRecorder()
	r.RemoteAddr = remote
	h.ServeHTTP(w, r)
	return w.Code
}

// However many ask at once, davd is asked twice, and one address does not use up what there is for others.
func TestHealthIsShared(t *testing.T) {
	var checks atomic.Int64
	hold := make(chan struct{})
	h := healthOf(t, func(context.Context) error {
		checks.Add(1)
		<-hold
		return nil
	})
	const asked = 200
	statuses := make(chan int, asked+1)
	for i := 0; i < asked; i++ {
		go func() { statuses <- askHealth(h, "192.0.2.1:5000") }()
	}
	for i := 0; i < asked-healthRequests/2; i++ {
		if status := <-statuses; status != http.StatusServiceUnavailable {
			t.Fatalf("status %d beyond the share of an address", status)
		}
	}
	go func() { statuses <- askHealth(h, "192.0.2.2:5000") }()
	time.Sleep(20 * time.Millisecond)
	close(hold)
	for i := 0; i < healthRequests/2+1; i++ {
		if status := <-statuses; status != http.StatusOK {
			t.Errorf("status %d", status)
		}
	}
	if n := checks.Load(); n > 2 {
		t.Errorf("davd was asked %d times", n)
	}
}

// What is answered is no older than the request.
func TestHealthIsNew(t *testing.T) {
	var isDown atomic.Bool
	h := healthOf(t, func(context.Context) error {
		if isDown.Load() {
			return errors.New("down")
		}
		return nil
	})
	for i := 0; i < 100; i++ {
		isDown.Store(i%2 == 1)
		want := http.StatusOK
		if i%2 == 1 {
			want = http.StatusServiceUnavailable
		}
		if status := askHealth(h, fmt.Sprintf("192.0.2.%d:5000", i)); status != want {
			t.Fatalf("request %d: status %d, want %d", i, status, want)
		}
	}
}

// A client that leaves waits for nothing.
func TestHealthOfOneWhoLeaves(t *testing.T) {
	hold := make(chan struct{})
	defer close(hold)
	h := healthOf(t, func(context.Context) error { <-hold; return nil })
	ctx, cancel := context.WithCancel(context.Background())
	cancel()
	defer func() {
		if v := recover(); v != http.ErrAbortHandler {
			t.Errorf("it ends with %v", v)
		}
	}()
	h.ServeHTTP(httptest.NewRecorder(), httptest.NewRequest("GET", healthPath, nil).WithContext(ctx))
	t.Error("it is answered")
}
