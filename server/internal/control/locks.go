package control

import (
	"context"
	"net/http"
	"net/url"

	"davserve"
)

// locksPath is the path of the locks.
const locksPath = "/locks"

// serveLocks answers GET with all locks, and removes at DELETE the one whose token the query of the URL has.
func (h *Handler) serveLocks(w http.ResponseWriter, r *http.Request) {
	switch r.Method {
	case http.MethodGet:
		h.listLocks(w, r)
	case http.MethodDelete:
		h.removeLock(w, r)
	default:
		refuseMethod(w, "DELETE, GET")
	}
}

// listLocks answers with all locks.
func (h *Handler) listLocks(w http.ResponseWriter, r *http.Request) {
	locks, err := h.source.Locks(r.Context())
	if err != nil {
		http.Error(w, err.Error(), statusOf(err))
		return
	}
	if locks == nil {
		locks = []davserve.Lock{} // An array without items, and not null.
	}
	writeJSON(w, locks)
}

// removeLock removes a lock.
func (h *Handler) removeLock(w http.ResponseWriter, r *http.Request) {
	token := r.URL.Query().Get("token")
	if token == "" {
		http.Error(w, "the query has no token", http.StatusBadRequest)
		return
	}
	if err := h.source.RemoveLock(r.Context(), token); err != nil {
		http.Error(w, err.Error(), statusOf(err))
		return
	}
	w.WriteHeader(http.StatusNoContent)
}

// ListLocks returns the locks of the server that listens at a socket, as it has sent them: a JSON array of davserve.Lock.
func ListLocks(ctx context.Context, socket string) ([]byte, error) {
	a, err := ask(ctx, socket, http.MethodGet, locksPath)
	if err != nil {
		return nil, err
	}
	if a.status != http.StatusOK {
		return nil, a.refusal("lists no locks")
	}
	return a.body, nil
}

// RemoveLock has the server that listens at a socket remove the lock with a token. If no lock has it, the error is
// davserve.ErrNoLock.
func RemoveLock(ctx context.Context, socket, token string) error {
	query := url.Values{"token": {token}}
	a, err := ask(ctx, socket, http.MethodDelete, locksPath+"?"+query.Encode())
	if err != nil {
		return err
	}
	switch a.status {
	case http.StatusNoContent:
		return nil
	case http.StatusNotFound:
		return davserve.ErrNoLock
	}
	return a.refusal("does not remove the lock")
}
