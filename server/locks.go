package davserve

import (
	"context"
	"errors"
	"fmt"
	"net/http"
	"time"

	"davserve/internal/frame"
)

// ErrNoLock says that no lock has the token.
var ErrNoLock = errors.New("no lock has this token")

// A Lock is a write lock that a client has (RFC 4918, section 6).
type Lock struct {
	Token     string     `json:"token"`
	Path      string     `json:"path"`      // of the URL of its resource, percent-encoded and with the prefix
	Principal *string    `json:"principal"` // the user who made it; nil: a request without a user
	Deep      bool       `json:"deep"`      // it also covers everything below the resource
	Shared    bool       `json:"shared"`    // others can have a shared lock of the resource, too
	Expires   *time.Time `json:"expires"`   // nil: never
}

// Locks returns all locks that have not expired, whoever made them. The oldest one is the first.
func (h *Handler) Locks(ctx context.Context) ([]Lock, error) {
	found, err := h.engine.Locks(ctx)
	if err != nil {
		return nil, err
	}
	locks := make([]Lock, len(found))
	for i, lock := range found {
		locks[i] = lockOf(lock)
	}
	return locks, nil
}

// RemoveLock removes the lock with a token, whoever made it, and logs whose it was. Its client finds out when it refreshes
// the lock, or finds another lock there. If no lock has the token, the error is ErrNoLock.
func (h *Handler) RemoveLock(ctx context.Context, token string) error {
	found, err := h.engine.Locks(ctx)
	if err != nil {
		return err
	}
	for _, lock := range found {
		if lock.Token == token {
			return h.removeLock(ctx, lock)
		}
	}
	return ErrNoLock
}

// removeLock removes a lock that was listed, and logs whose it was.
func (h *Handler) removeLock(ctx context.Context, lock frame.Lock) error {
	err := h.engine.RemoveLock(ctx, lock.Path, lock.Token)
	var failed *StatusError
	switch {
	case errors.As(err, &failed) && failed.Status == http.StatusNotFound:
		return ErrNoLock // It has ended meanwhile.
	case err != nil:
		return err
	}
	owner := "a request without a user"
	if lock.Principal != nil {
		owner = fmt.Sprintf("%q", *lock.Principal)
	}
	h.options.Log.Printf("the lock %q of %s at %q is removed", lock.Token, owner, lock.Path)
	return nil
}

// lockOf returns a lock of davd as programs get it.
func lockOf(lock frame.Lock) Lock {
	return Lock{
		Token:     lock.Token,
		Path:      lock.Path,
		Principal: lock.Principal,
		Deep:      lock.Deep,
		Shared:    lock.Shared,
		Expires:   timeOf(lock.Expires),
	}
}

// lastSecond is the last one of the year 9999, in seconds since 1970. Later times cannot be written in RFC 3339.
const lastSecond = 253402300799

// timeOf returns the time of a number of seconds since 1970. What is later than the year 9999 is never.
func timeOf(seconds *uint64) *time.Time {
	if seconds == nil || *seconds > lastSecond {
		return nil
	}
	t := time.Unix(int64(*seconds), 0).UTC()
	return &t
}
