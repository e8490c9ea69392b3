package davserve

import (
	"bytes"
	"context"
	"errors"
	"fmt"
	"math"
	"net/http"
	"net/http/httptest"
	"strings"
	"testing"
	"time"

	"davserve/internal/frame"
	"davserve/internal/share"
)

func TestSizes(t *testing.T) {
	s := newSizes()
	s.set("/small", listMemory)
	s.set("/large", 5*listMemory)
	for _, test := range []struct {
		path    string
		bytes   int64
		isShort bool
	}{
		{"/small", listMemory, true},
		{"/large", 5 * listMemory, false},
		{"/new", listMemory, false},
	} {
		if bytes, isShort := s.get(test.path); bytes != test.bytes || isShort != test.isShort {
			t.Errorf("%s needs %d, %v", test.path, bytes, isShort)
		}
	}
	s.set("/large", 1) // its members were removed
	if bytes, isShort := s.get("/large"); bytes != listMemory || !isShort {
		t.Errorf("a list that is short now needs %d, %v", bytes, isShort)
	}
	for i := 0; i < 3*keptSizes; i++ {
		s.set(fmt.Sprint(i), 2*listMemory)
	}
	if n := len(s.of); n > keptSizes {
		t.Errorf("%d sizes are kept", n)
	}
}

// Two requests of a client that both need more than what is left do not wait for each other.
func TestNeed(t *testing.T) {
	pool := share.NewPool(100, 50, 10)
	with := func(key share.Key) (context.Context, *holding) {
		m := &holding{pool: pool, key: key}
		return context.WithValue(context.Background(), holdingKey{}, m), m
	}
	first, one := with("a")
	second, other := with("a")
	for _, ctx := range []context.Context{first, second} {
		if err := need(ctx, 20); err != nil {
			t.Fatal(err)
		}
	}
	if err := need(first, 30); err != nil {
		t.Errorf("the first gets no more, beside 20 of the second: %v", err)
	}
	waited := make(chan error, 1)
	go func() { waited <- need(second, 60) }()
	time.Sleep(10 * time.Millisecond)
	one.end()
	if err := <-waited; err != nil {
		t.Errorf("the second gets nothing after the first: %v", err)
	}
	if err := need(second, 10); err != nil || other.has != 60 {
		t.Errorf("it has %d, error %v", other.has, err)
	}
	other.end()
	other.end()
	if held, _ := pool.Use(); held != 0 {
		t.Errorf("%d are in use", held)
	}
	if err := need(context.Background(), math.MaxInt64); err != nil {
		t.Errorf("a context without a holding: %v", err)
	}
}

func TestUnderWay(t *testing.T) {
	h := &Handler{uploads: share.NewPool(8*piece, 50, 10)}
	h.options.Principal = func(*http.Request) (string, bool) { return "", false }
	begin := func(remote string, length int64) (*underWay, error) {
		r := httptest.NewRequest("PUT", "/", nil)
		r.RemoteAddr, r.ContentLength = remote, length
		return h.beginUpload(r)
	}
	chunked, err := begin("192.0.2.1:1", -1)
	if err != nil {
		t.Fatal(err)
	}
	for i := 0; i < 8; i++ { // Alone it may have everything.
		if err := chunked.came(piece); err != nil {
			t.Fatalf("piece %d: %v", i, err)
		}
	}
	chunked.lease.Release()
	known, err := begin("192.0.2.1:1", 3*piece)
	if err != nil {
		t.Fatal(err)
	}
	if chunked, err = begin("192.0.2.1:2", -1); err != nil {
		t.Fatal(err)
	}
	if err := chunked.came(2 * piece); !errors.Is(err, share.ErrBusy) {
		t.Errorf("beyond the share: %v", err)
	}
	start := time.Now()
	if _, err := begin("192.0.2.1:3", 2*piece); !errors.Is(err, share.ErrBusy) || time.Since(start) < bodyPatience {
		t.Errorf("one more upload: %v after %v", err, time.Since(start))
	}
	if _, err := begin("192.0.2.2:1", 4*piece); err != nil {
		t.Errorf("an upload of another client: %v", err)
	}
	known.lease.Release()
	chunked.lease.Release()
}

func TestDefaultUploads(t *testing.T) {
	tests := []struct {
		options Options
		want    int64
	}{
		{Options{MaxBody: 1 << 30, Folder: "/f", Memory: 1 << 30}, 64 << 30},
		{Options{MaxBody: 1 << 30, Memory: 1 << 30}, 1 << 30},
		{Options{MaxBody: 1 << 20, Memory: 1 << 30}, 64 << 20},
		{Options{MaxBody: 1 << 30}, 64 << 30},
		{Options{MaxBody: math.MaxInt64}, math.MaxInt64},
	}
	for _, test := range tests {
		if got := test.options.defaultUploads(); got != test.want {
			t.Errorf("%+v: %d, want %d", test.options, got, test.want)
		}
	}
}

func TestDepthOf(t *testing.T) {
	if got := depthOf(&frame.Request{Fields: []frame.Field{{Name: "depth", Value: "1"}}}); got != "1" {
		t.Errorf("the depth is %q", got)
	}
	if got := depthOf(&frame.Request{}); got != "" {
		t.Errorf("without one it is %q", got)
	}
}

// handler returns the handler of a server that a test started.
func (c client) handler() *Handler {
	return c.server.Config.Handler.(*Handler)
}

// fill makes a collection with so many members, whose names are long.
func (c client) fill(path string, members int) {
	c.t.Helper()
	c.want(http.StatusCreated, "MKCOL", path, "")
	for i := 0; i < members; i++ {
		c.want(http.StatusCreated, "MKCOL", fmt.Sprintf("%s%04d-%s/", path, i, strings.Repeat("x", 100)), "")
	}
}

// weigh gives members of a collection long properties. The list of them has about 500 KB, for which it needs 3 MB.
func (c client) weigh(path string) {
	c.t.Helper()
	c.fill(path, 0)
	property := "<propertyupdate xmlns=\"DAV:\"><set><prop><x:p xmlns:x=\"urn:x\">" + strings.Repeat("y", 80<<10) +
		"</x:p></prop></set></propertyupdate>"
	for i := 0; i < 6; i++ {
		member := fmt.Sprint(path, i)
		c.want(http.StatusCreated, "PUT", member, "")
		c.want(http.StatusMultiStatus, "PROPPATCH", member, property)
	}
}

// depth1 is the header field with which a PROPFIND asks for the members of a collection.
const depth1 = "Depth: 1"

// A list whose memory others have is dropped when it comes, and asked for again when they have given it back.
func TestAListWaitsForItsMemory(t *testing.T) {
	c := startServer(t, Options{XMLMemory: 4 << 20})
	c.weigh("/c/")
	h := c.handler()
	other, err := h.memory.Acquire(context.Background(), "another", 2<<20, 0)
	if err != nil {
		t.Fatal(err)
	}
	frames := h.frames(t)
	go func() {
		time.Sleep(200 * time.Millisecond)
		other.Release()
	}()
	c.want(http.StatusMultiStatus, "PROPFIND", "/c/", "", depth1)
	if got := h.frames(t) - frames; got != 2+1 { // and the one of this test
		t.Errorf("davd got %d frames", got)
	}
	if bytes, isShort := h.sizes.get("/c/"); bytes < 2<<20 || isShort {
		t.Errorf("the list needs %d, %v", bytes, isShort)
	}
	if held, _ := h.memory.Use(); held != 0 {
		t.Errorf("%d bytes are in use", held)
	}
}

// frames returns how many frames davd has got.
func (h *Handler) frames(t *testing.T) int {
	t.Helper()
	var text bytes.Buffer
	if err := h.WriteMetrics(context.Background(), &text); err != nil {
		t.Fatal(err)
	}
	_, after, _ := strings.Cut(text.String(), "davserve_batch_frames_sum ")
	var n int
	if _, err := fmt.Sscan(after, &n); err != nil {
		t.Fatal(err)
	}
	return n
}

func TestAListWithoutMemoryIs503(t *testing.T) {
	c := startServer(t, Options{XMLMemory: 4 << 20})
	c.weigh("/c/")
	other, err := c.handler().memory.Acquire(context.Background(), "another", 2<<20, 0)
	if err != nil {
		t.Fatal(err)
	}
	defer other.Release()
	began := time.Now()
	response, _ := c.do("PROPFIND", "/c/", nil, depth1)
	if response.StatusCode != http.StatusServiceUnavailable || response.Header.Get("Retry-After") != "1" {
		t.Errorf("the response is %v", response)
	}
	if took := time.Since(began); took < memoryPatience || took > 2*memoryPatience {
		t.Errorf("it came after %v", took)
	}
	c.want(http.StatusMultiStatus, "PROPFIND", "/c/", "", "Depth: 0")
}

// Many lists of a collection that was never listed are under way at once, of several clients: davd makes few at a time, none
// has memory that it may not have, and each is served or 503.
func TestTheFirstListsOfALargeCollection(t *testing.T) {
	const most = 6 << 20
	c := startServer(t, Options{XMLMemory: most, Client: func(r *http.Request) string { return r.Header.Get("Client") }})
	c.weigh("/c/")
	h := c.handler()
	statuses := make(chan int)
	for i := 0; i < 24; i++ {
		go func(i int) {
			response, _ := c.do("PROPFIND", "/c/", nil, depth1, fmt.Sprintf("Client: %d", i%6))
			statuses <- response.StatusCode
		}(i)
	}
	counts, atOnce := map[int]int{}, int64(0)
	for served := 0; served < 24; {
		select {
		case status := <-statuses:
			counts[status]++
			served++
		case <-time.After(time.Millisecond):
		}
		held, _ := h.memory.Use()
		turns, _ := h.turns.Use()
		if held > most || turns > listsAtOnce {
			t.Fatalf("%d bytes, %d lists at once", held, turns)
		}
		if turns > atOnce {
			atOnce = turns
		}
	}
	if counts[http.StatusMultiStatus] == 0 || counts[http.StatusMultiStatus]+counts[http.StatusServiceUnavailable] != 24 || atOnce == 0 {
		t.Errorf("the statuses are %v, and %d lists were made at once", counts, atOnce)
	}
	if held, _ := h.memory.Use(); held != 0 {
		t.Errorf("%d bytes are in use", held)
	}
}

// A response that names each resource that stays, or that is not copied, needs memory, too. Without it the response is 507,
// and the request is done.
func TestAResponseThatNamesMuchNeedsMemory(t *testing.T) {
	const rules = `
[[rule]]
everyone = true
at_and_below = "/"
allow = ["list", "read", "write"]

[[rule]]
everyone = true
at_and_below = "/c/stays"
allow = ["list", "read"]
`
	c := startServer(t, Options{XMLMemory: 1 << 20})
	h := c.handler()
	c.want(http.StatusCreated, "MKCOL", "/c/", "")
	c.fill("/c/stays/", 100)
	if err := h.SetRights(context.Background(), rules); err != nil {
		t.Fatal(err)
	}
	for _, test := range []struct {
		others int64 // what others have
		status int
	}{
		{0, http.StatusMultiStatus},
		{1<<20 - changeMemory, http.StatusInsufficientStorage},
	} {
		c.want(http.StatusCreated, "PUT", "/c/goes", "x")
		other, err := h.memory.Acquire(context.Background(), "another", test.others, 0)
		if err != nil {
			t.Fatal(err)
		}
		body := c.want(test.status, "DELETE", "/c/", "")
		if named := strings.Count(body, "<D:response>"); test.status == http.StatusMultiStatus && named < 100 {
			t.Errorf("%d of 100 are named in\n%.1000s", named, body)
		}
		other.Release()
		if held, _ := h.memory.Use(); held != 0 {
			t.Errorf("%d bytes are in use", held)
		}
		c.want(http.StatusNotFound, "GET", "/c/goes", "")
	}
	c.want(http.StatusMultiStatus, "PROPFIND", "/c/stays/", "", "Depth: 0")
}

// What comes after the end of a request gets no memory.
func TestNoMemoryAfterTheEnd(t *testing.T) {
	pool := share.NewPool(100, 50, 10)
	m := &holding{pool: pool, key: "a"}
	if !m.grow(20) || !m.grow(10) || m.grow(200) != true || !m.grow(100) {
		t.Error("a request alone gets too little")
	}
	m.end()
	if m.grow(1) {
		t.Error("it gets memory after its end")
	}
	ctx := context.WithValue(context.Background(), holdingKey{}, m)
	if err := need(ctx, 5); err != nil {
		t.Error(err)
	}
	if held, _ := pool.Use(); held != 0 {
		t.Errorf("%d are in use", held)
	}
	var nobody *holding
	if !nobody.grow(math.MaxInt64) {
		t.Error("one that nobody counts gets none")
	}
}
