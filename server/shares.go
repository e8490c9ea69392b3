package davserve

import (
	"context"
	"errors"
	"hash/maphash"
	"net/http"
	"sync"
	"time"

	"davserve/internal/caller"
	"davserve/internal/davd"
	"davserve/internal/frame"
	"davserve/internal/share"
)

const (
	// memoryPatience is how long a request waits for memory, and bodyPatience how long an upload waits for its bytes.
	memoryPatience = 5 * time.Second
	bodyPatience   = time.Second
	// waitingShares is how many requests may wait for memory, and how many uploads for their bytes.
	waitingShares = 1024

	// listsAtOnce is for how many lists davd is asked at once that may be long. It makes one after the other, while other
	// requests wait, and may have all of them in its memory before it returns the first.
	listsAtOnce = 8
	// listMemory is what a list of members has until its length is known, and changeMemory what a change has whose response
	// may be long: that to a DELETE names each resource that stays.
	listMemory, changeMemory = 1 << 20, 64 << 10
	// replyMemory is how many bytes a byte of a reply needs, for its tree and its text. freeReply is how long one may be
	// without memory of its own.
	replyMemory, freeReply = 6, 4 << 10
	// listTries is how many times a list is asked for that becomes longer each time.
	listTries = 3
	// xmlMemory is how many bytes a byte of an XML body needs.
	xmlMemory = 16
	// freeXML is how many bytes of XML a request may have in any case.
	freeXML = 4 << 10
)

// clientOf returns who has sent a request.
func (h *Handler) clientOf(r *http.Request) share.Key {
	if h.options.Client != nil {
		return share.Key(h.options.Client(r))
	}
	if name, ok := h.options.Principal(r); ok {
		return caller.UserKey(name)
	}
	return caller.Key(caller.Parse(r.RemoteAddr))
}

type holdingKey struct{}

// A holding is the memory that a request has. The request takes it, and who reads the replies of davd may make it more.
type holding struct {
	pool *share.Pool
	key  share.Key

	mu    sync.Mutex
	lease *share.Lease
	has   int64
	ended bool // the request has
}

// withHolding returns a request that may need memory. The caller must end what it gets.
func (h *Handler) withHolding(r *http.Request) (*http.Request, *holding) {
	m := &holding{pool: h.memory, key: h.clientOf(r)}
	return r.WithContext(context.WithValue(r.Context(), holdingKey{}, m)), m
}

// holdingOf returns what the request of a context has, or nil if nobody counts that.
func holdingOf(ctx context.Context) *holding {
	m, _ := ctx.Value(holdingKey{}).(*holding)
	return m
}

// need waits until the request of a context may have so much memory, beside what nobody counts. If it may not, it has
// none.
func need(ctx context.Context, bytes int64) error {
	m := holdingOf(ctx)
	if m == nil || m.hasAtLeast(bytes) {
		return nil
	}
	// What it has is given back first, so that no two requests wait for each other.
	m.set(nil, 0)
	lease, err := m.pool.Acquire(ctx, m.key, bytes, memoryPatience)
	if err != nil {
		return err
	}
	m.set(lease, bytes)
	return nil
}

// hasAtLeast reports whether a request has so much memory.
func (m *holding) hasAtLeast(bytes int64) bool {
	m.mu.Lock()
	defer m.mu.Unlock()
	return bytes <= m.has
}

// set replaces what a request has.
func (m *holding) set(lease *share.Lease, bytes int64) {
	m.mu.Lock()
	defer m.mu.Unlock()
	m.lease.Release()
	m.lease, m.has = lease, bytes
	if m.ended {
		m.lease.Release()
	}
}

// grow reports whether the request may have so much memory, without a wait. It keeps what it has in any case. After the end
// of the request it may have none.
func (m *holding) grow(bytes int64) bool {
	if m == nil {
		return true
	}
	m.mu.Lock()
	defer m.mu.Unlock()
	switch {
	case m.ended:
		return false
	case bytes <= m.has:
		return true
	case m.lease == nil:
		lease, err := m.pool.Acquire(context.Background(), m.key, bytes, 0)
		if err != nil {
			return false
		}
		m.lease = lease
	case m.lease.Grow(bytes-m.has) != nil:
		return false
	}
	m.has = bytes
	return true
}

// end gives back what the request has.
func (m *holding) end() {
	m.mu.Lock()
	defer m.mu.Unlock()
	m.ended, m.has = true, 0
	m.lease.Release()
}

// sizes remembers how much memory the last lists of some collections needed.
type sizes struct {
	seed maphash.Seed

	mu sync.Mutex
	of map[uint64]int64
}

// keptSizes is of how many collections that is remembered.
const keptSizes = 4096

func newSizes() *sizes {
	return &sizes{seed: maphash.MakeSeed(), of: make(map[uint64]int64)}
}

// get returns what a list needs until its length is known, and whether it was a short one the last time.
func (s *sizes) get(path string) (bytes int64, isShort bool) {
	s.mu.Lock()
	defer s.mu.Unlock()
	bytes, isKnown := s.of[maphash.String(s.seed, path)]
	if bytes <= listMemory {
		return listMemory, isKnown
	}
	return bytes, false
}

// set notes what a list needs.
func (s *sizes) set(path string, bytes int64) {
	key := maphash.String(s.seed, path)
	s.mu.Lock()
	defer s.mu.Unlock()
	if _, isKnown := s.of[key]; !isKnown && len(s.of) >= keptSizes {
		s.of = make(map[uint64]int64)
	}
	s.of[key] = bytes
}

// ask sends a request to davd, and returns its response. There is memory for that before it is read.
func (h *Handler) ask(ctx context.Context, request *frame.Request) (*frame.Response, error) {
	switch request.Method {
	case "PROPFIND":
		return h.askAgain(ctx, request)
	case http.MethodDelete, "COPY", "MOVE", "PROPPATCH", "LOCK":
		if err := need(ctx, changeMemory); err != nil {
			return nil, err
		}
	}
	response, err := h.askOnce(ctx, request, func(int64) {}, nil)
	if errors.Is(err, davd.ErrDropped) {
		return nil, statusError(http.StatusInsufficientStorage) // As davd fails one for whose response it has no memory.
	}
	return response, err
}

// askAgain sends a request that changes nothing. A response for which there is no memory is dropped, and then the request
// is sent again when it has the memory. A list of members has before what it needed the last time.
func (h *Handler) askAgain(ctx context.Context, request *frame.Request) (*frame.Response, error) {
	needed, isShort, isList := int64(0), true, depthOf(request) != "0"
	if isList {
		needed, isShort = h.sizes.get(request.Path)
	}
	for try := 0; try < listTries; try++ {
		if err := need(ctx, needed); err != nil {
			return nil, err
		}
		turn, err := h.turnOf(ctx, isShort)
		if err != nil {
			return nil, err
		}
		response, err := h.askOnce(ctx, request, func(bytes int64) {
			needed, isShort = bytes, false
			if isList {
				h.sizes.set(request.Path, bytes)
			}
		}, turn.Release)
		if !errors.Is(err, davd.ErrDropped) {
			return response, err
		}
	}
	return nil, share.ErrBusy
}

// turnOf waits until the request of a context may be sent, if its response may be long.
func (h *Handler) turnOf(ctx context.Context, isShort bool) (*share.Lease, error) {
	m := holdingOf(ctx)
	if isShort || m == nil {
		return nil, nil
	}
	return h.turns.Acquire(ctx, m.key, 1, memoryPatience)
}

// askOnce sends a request. Before its response is read, a function gets how much memory that needs. If there is not so
// much, the error is davd.ErrDropped. Another one is called when davd has nothing more to do for the request, unless it is
// nil: that may be after the client has left.
func (h *Handler) askOnce(ctx context.Context, request *frame.Request, needs func(bytes int64), over func()) (*frame.Response, error) {
	m := holdingOf(ctx)
	return responseOf(h.engine.DoFitting(ctx, request, davd.Fitting{
		Fits: func(size int) bool {
			bytes := int64(size) * replyMemory
			needs(bytes)
			return size <= freeReply || m.grow(bytes)
		},
		Over: over,
	}))
}

// depthOf returns the header field Depth of a request.
func depthOf(request *frame.Request) string {
	for _, field := range request.Fields {
		if field.Name == "depth" {
			return field.Value
		}
	}
	return ""
}

// An underWay is the bytes of an upload that count as under way.
type underWay struct {
	lease *share.Lease
	has   int64
	read  int64
}

// beginUpload has the bytes of an upload count. Of a body in chunks nobody knows how many there are: they count as they
// come. The caller must release them.
func (h *Handler) beginUpload(r *http.Request) (*underWay, error) {
	size := r.ContentLength
	if size < 0 {
		size = piece
	}
	lease, err := h.uploads.Acquire(r.Context(), h.clientOf(r), size, bodyPatience)
	if err != nil {
		return nil, err
	}
	return &underWay{lease: lease, has: size}, nil
}

// came says that so many more bytes have come.
func (u *underWay) came(n int) error {
	u.read += int64(n)
	if u.read <= u.has {
		return nil
	}
	if err := u.lease.Grow(piece); err != nil {
		return err
	}
	u.has += piece
	return nil
}
