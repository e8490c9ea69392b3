package davd

import (
	"context"
	"fmt"

	"davserve/internal/frame"
)

// SetModified sets when the resource at a path was last modified, in seconds since 1970. The path is as in a request line.
// If no resource exists there, the error is a *StatusError with 404.
func (e *Engine) SetModified(ctx context.Context, path string, time uint64) error {
	return e.change(ctx, frame.SetModified{Path: path, Time: time}, "set a time")
}

// change sends a frame whose reply is frame.Done. An error names what another reply was to.
func (e *Engine) change(ctx context.Context, f frame.Frame, what string) error {
	reply, err := e.Do(ctx, f)
	if err != nil {
		return err
	}
	if _, ok := reply.(frame.Done); !ok {
		return fmt.Errorf("davd %s with a reply %T", what, reply)
	}
	return nil
}
