package limit

import (
	"net/http"
	"time"

	"davserve/internal/share"
)

// Requests returns a handler that passes a request to next when its client has a unit of the pool. A request waits for
// that as long as the patience is. If it still has none then, the response is 503 with Retry-After.
func Requests(pool *share.Pool, patience time.Duration, keyOf func(*http.Request) share.Key, next http.Handler) http.Handler {
	return http.HandlerFunc(func(w http.ResponseWriter, r *http.Request) {
		lease, err := pool.Acquire(r.Context(), keyOf(r), 1, patience)
		if err != nil {
			Busy(w, r)
			return
		}
		defer lease.Release()
		next.ServeHTTP(w, r)
	})
}

// Busy answers a request for which there is no room now. With HTTP/2 the response has no body: nothing of it has to wait
// until its client makes room for it.
func Busy(w http.ResponseWriter, r *http.Request) {
	w.Header().Set("Retry-After", "1")
	if r.ProtoMajor == 2 {
		w.Header().Set("Content-Length", "0")
		w.WriteHeader(http.StatusServiceUnavailable)
		return
	}
	http.Error(w, "too many requests at once", http.StatusServiceUnavailable)
}
