package limit

import (
	"context"
	"net/http"
	"net/http/httptest"
	"sync"
	"sync/atomic"
	"testing"
	"time"

	"davserve/internal/share"
)

// A gate is a handler whose requests wait until it opens.
type gate struct {
	open    chan struct{}
	entered chan struct{}
	now     int32
	peak    int32
}

func newGate() *gate {
	return &gate{open: make(chan struct{}), entered: make(chan struct{}, 100)}
}

func (g *gate) ServeHTTP(w http.ResponseWriter, r *http.Request) {
	n := atomic.AddInt32(&g.now, 1)
	defer atomic.AddInt32(&g.now, -1)
	for {
		peak := atomic.LoadInt32(&g.peak)
		if n <= peak || atomic.CompareAndSwapInt32(&g.peak, peak, n) {
			break
		}
	}
	g.entered <- struct{}{}
	<-g.open
}

// byHost has a request belong to the client that its host names.
func byHost(r *http.Request) share.Key { return share.Key(r.Host) }

func get(ctx context.Context, h http.Handler, client string) *httptest.ResponseRecorder {
	w := httptest.NewRecorder()
	h.ServeHTTP(w, httptest.NewRequest("GET", "http://"+client+"/", nil).WithContext(ctx))
	return w
}

func TestRequests(t *testing.T) {
	const most, all = 3, 30
	g := newGate()
	h := Requests(share.NewPool(most, 100, all), time.Minute, byHost, g)
	var wg sync.WaitGroup
	for i := 0; i < all; i++ {
		wg.Add(1)
		go func() {
			defer wg.Done()
			if w := get(context.Background(), h, "a"); w.Code != http.StatusOK {
				t.Errorf("status %d", w.Code)
			}
		}()
	}
	for i := 0; i < most; i++ {
		<-g.entered
	}
	select {
	case <-g.entered:
		t.Error("one request too many")
	case <-time.After(50 * time.Millisecond):
	}
	close(g.open)
	wg.Wait()
	if g.peak != most {
		t.Errorf("%d requests at once", g.peak)
	}
}

// A client has its share of the requests, which do not end. Another one is served.
func TestRequestsOfTwoClients(t *testing.T) {
	g := newGate()
	h := Requests(share.NewPool(4, 50, 10), 50*time.Millisecond, byHost, g)
	statuses := make(chan int, 5)
	ask := func(client string) { statuses <- get(context.Background(), h, client).Code }
	for i := 0; i < 3; i++ {
		go ask("greedy")
	}
	if status := <-statuses; status != http.StatusServiceUnavailable {
		t.Errorf("a request beyond the share of its client: status %d", status)
	}
	go ask("modest")
	for i := 0; i < 3; i++ {
		select {
		case <-g.entered:
		case <-time.After(5 * time.Second):
			t.Fatalf("only %d requests are served", i)
		}
	}
	close(g.open)
	for i := 0; i < 3; i++ {
		if status := <-statuses; status != http.StatusOK {
			t.Errorf("status %d", status)
		}
	}
}

func TestRequestsBeyond(t *testing.T) {
	const patience = 200 * time.Millisecond
	g := newGate()
	h := Requests(share.NewPool(1, 50, 10), patience, byHost, g)
	done := make(chan struct{})
	go func() {
		defer close(done)
		get(context.Background(), h, "a")
	}()
	<-g.entered

	start := time.Now()
	w := get(context.Background(), h, "a")
	if d := time.Since(start); d < patience || d > 10*time.Second {
		t.Errorf("the response came after %v", d)
	}
	if w.Code != http.StatusServiceUnavailable || w.Header().Get("Retry-After") != "1" || w.Body.Len() == 0 {
		t.Errorf("status %d, Retry-After %q", w.Code, w.Header().Get("Retry-After"))
	}

	ctx, cancel := context.WithCancel(context.Background())
	cancel()
	start = time.Now()
	if w := get(ctx, h, "a"); w.Code != http.StatusServiceUnavailable || time.Since(start) > patience {
		t.Errorf("status %d after %v of a request that has ended", w.Code, time.Since(start))
	}

	close(g.open)
	<-done
	if w := get(context.Background(), h, "a"); w.Code != http.StatusOK {
		t.Errorf("status %d after the place was free", w.Code)
	}
}

func TestBusyOverHTTP2HasNoBody(t *testing.T) {
	r := httptest.NewRequest("GET", "/", nil)
	r.ProtoMajor = 2
	w := httptest.NewRecorder()
	Busy(w, r)
	if w.Code != http.StatusServiceUnavailable || w.Body.Len() != 0 || w.Header().Get("Content-Length") != "0" {
		t.Errorf("status %d, %d bytes", w.Code, w.Body.Len())
	}
}

func TestRequestsPanic(t *testing.T) {
	h := Requests(share.NewPool(1, 50, 1), 10*time.Millisecond, byHost, http.HandlerFunc(
		func(w http.ResponseWriter, r *http.Request) { panic(http.ErrAbortHandler) }))
	for i := 0; i < 2; i++ {
		func() {
			defer func() {
				if v := recover(); v != http.ErrAbortHandler {
					t.Errorf("request %d: %v", i, v)
				}
			}()
			get(context.Background(), h, "a")
		}()
	}
}
