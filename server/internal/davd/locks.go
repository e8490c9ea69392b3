package davd

import (
	"context"
	"fmt"

	"davserve/internal/frame"
)

// Locks returns all locks, the oldest first.
func (e *Engine) Locks(ctx context.Context) ([]frame.Lock, error) {
	reply, err := e.Do(ctx, frame.ListLocks{})
	if err != nil {
		return nil, err
	}
	locks, ok := reply.(frame.Locks)
	if !ok {
		return nil, fmt.Errorf("davd listed its locks with a reply %T", reply)
	}
	return locks, nil
}

// RemoveLock removes the lock with a token, whatever its principal is. The path is as in a request line, that of the
// resource of the lock or of one below it. If there is no such lock, the error is a *StatusError with 404.
func (e *Engine) RemoveLock(ctx context.Context, path, token string) error {
	return e.change(ctx, frame.RemoveLock{Path: path, Token: token}, "removed a lock")
}
