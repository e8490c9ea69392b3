package davserve

import (
	"context"
	"fmt"
	"net/http"
	"strconv"
	"strings"
	"sync"

	"davserve/internal/frame"
)

// A quota limits how many bytes all files have together.
//
// davd says how many bytes are used, and asking costs it time. So a quota keeps an upper bound of that: what davd said
// last, and all that was reserved since. Requests that have room under the bound write at the same time. One that has
// none waits until these are done, has davd asked, and writes alone. So nothing is counted twice.
type quota struct {
	total int64
	used  func(context.Context) (int64, error)

	writing sync.RWMutex // locked by a request that writes alone, read-locked by each other that writes
	mu      sync.Mutex
	bound   int64
}

func newQuota(total int64, used func(context.Context) (int64, error)) *quota {
	return &quota{total: total, used: used}
}

// take reports whether there is room for n bytes more, and counts them. No more bytes have always room.
func (q *quota) take(n int64) bool {
	q.mu.Lock()
	defer q.mu.Unlock()
	if n > 0 && n > q.total-q.bound {
		return false
	}
	q.bound += n
	return true
}

// mayTake reports whether there is room for n bytes more, and counts nothing.
func (q *quota) mayTake(n int64) bool {
	q.mu.Lock()
	defer q.mu.Unlock()
	return n <= 0 || n <= q.total-q.bound
}

// reserve makes room for a number of bytes of which an upper bound is known. If there is no room for that many, it asks
// how many they are exactly. If there is no room for these either, the error has the status 507. The caller must call
// release when the bytes are written, or are not going to be.
func (q *quota) reserve(ctx context.Context, most int64, exact func() (int64, error)) (release func(), err error) {
	q.writing.RLock()
	if q.take(most) {
		return q.writing.RUnlock, nil
	}
	q.writing.RUnlock()
	q.writing.Lock()
	if err := q.takeAlone(ctx, exact); err != nil {
		q.writing.Unlock()
		return nil, err
	}
	return q.writing.Unlock, nil
}

// takeAlone asks davd how many bytes are used, and counts those that the only request under way writes.
func (q *quota) takeAlone(ctx context.Context, exact func() (int64, error)) error {
	used, err := q.used(ctx)
	if err != nil {
		return err
	}
	q.mu.Lock()
	q.bound = used
	q.mu.Unlock()
	n, err := exact()
	if err != nil {
		return err
	}
	if !q.take(n) {
		return statusError(http.StatusInsufficientStorage)
	}
	return nil
}

// used asks davd how many bytes all files have.
func (h *Handler) used(ctx context.Context) (int64, error) {
	reply, err := h.engine.Do(ctx, frame.Held{})
	if err != nil {
		return 0, err
	}
	holdings, ok := reply.(frame.Holdings)
	if !ok || holdings.Quota == nil {
		return 0, fmt.Errorf("davd knows no quota: it replied %T", reply)
	}
	return int64(holdings.Quota.Used), nil
}

// reserve makes room under the quota, if there is one, as [quota.reserve] does.
func (h *Handler) reserve(ctx context.Context, most int64, exact func() (int64, error)) (release func(), err error) {
	if h.quota == nil {
		return func() {}, nil
	}
	return h.quota.reserve(ctx, most, exact)
}

// reserveUpload makes room for a PUT or a PATCH whose body has this length.
func (h *Handler) reserveUpload(r *http.Request, length int64) (release func(), err error) {
	most, exact := h.growth(r, length)
	return h.reserve(r.Context(), most, exact)
}

// growth returns how many bytes more all files have at most after a PUT or a PATCH whose body has this length, and what
// asks how many exactly.
func (h *Handler) growth(r *http.Request, length int64) (most int64, exact func() (int64, error)) {
	begin := places(r.Method, r.Header)
	most = begin.offset(0) + length
	return most, func() (int64, error) {
		old, _, err := h.look(r.Context(), pathOf(r), h.principal(r))
		if old == nil || err != nil {
			return most, err
		}
		end := begin.offset(int64(old.Length)) + length
		return greater(end-int64(old.Length), 0), nil
	}
}

// A choice is some places, one of which is where an update begins.
type choice []place

// offset returns the greatest offset of the places in a file of this length.
func (c choice) offset(length int64) int64 {
	most := int64(0)
	for _, p := range c {
		most = greater(most, p.offset(length))
	}
	return most
}

// A place is where a partial update begins.
type place struct {
	append  bool  // at the end of the file
	fromEnd bool  // count bytes before the end of the file
	count   int64 // bytes from the start of the file
}

// places reads where a PUT or PATCH may begin: at Content-Range, which the engine reads of both, and a PATCH also at
// X-Update-Range. None that is wrong is refused.
func places(method string, header http.Header) choice {
	found := choice{placeOf(strings.TrimPrefix(header.Get("Content-Range"), "bytes "))}
	if method != http.MethodPut {
		found = append(found, placeOf(header.Get("X-Update-Range")))
	}
	return found
}

// placeOf reads a place.
func placeOf(text string) place {
	text = strings.TrimPrefix(strings.TrimSpace(text), "bytes=")
	if text == "append" {
		return place{append: true}
	}
	digits := strings.TrimPrefix(text, "-")
	if end := strings.IndexFunc(digits, isNotDigit); end >= 0 {
		digits = digits[:end]
	}
	count, err := strconv.ParseInt(digits, 10, 64)
	if err != nil {
		return place{}
	}
	return place{fromEnd: digits != text && strings.HasPrefix(text, "-"), count: count}
}

// offset returns the offset of the place in a file of this length.
func (p place) offset(length int64) int64 {
	switch {
	case p.append:
		return length
	case p.fromEnd:
		return greater(length-p.count, 0)
	}
	return p.count
}

func greater(one, other int64) int64 {
	if one > other {
		return one
	}
	return other
}

// copy answers a COPY. With a quota, the host counts the bytes that it copies before.
func (h *Handler) copy(w http.ResponseWriter, r *http.Request) error {
	if h.quota == nil {
		return h.withoutBody(w, r)
	}
	request, err := h.requestWithoutBody(r)
	if err != nil {
		return err
	}
	response, err := h.copyWithin(r, request)
	if err != nil {
		return err
	}
	h.setModified(r, response)
	return h.write(w, r, response) // With no room reserved: a client that reads it slowly keeps nobody else from writing.
}

// copyWithin sends a COPY to davd if the quota has room for it.
func (h *Handler) copyWithin(r *http.Request, request *frame.Request) (*frame.Response, error) {
	size, err := h.copied(r)
	if err != nil {
		return nil, err
	}
	release, err := h.reserve(r.Context(), size, func() (int64, error) { return size, nil })
	if err != nil {
		return nil, err
	}
	defer release()
	return h.ask(r.Context(), request)
}

// copied returns how many bytes a COPY copies. Those of a collection with Depth 0 are none.
func (h *Handler) copied(r *http.Request) (size int64, err error) {
	if strings.TrimSpace(r.Header.Get("Depth")) == "0" {
		file, _, err := h.look(r.Context(), pathOf(r), h.principal(r))
		if file == nil || err != nil {
			return 0, err
		}
		return int64(file.Length), nil
	}
	err = h.walk(r.Context(), pathOf(r), h.principal(r), func(m member) error {
		if size += m.Length; size > h.quota.total {
			return statusError(http.StatusInsufficientStorage)
		}
		return nil
	})
	return size, err
}
