package davserve

import (
	"context"
	"errors"
	"fmt"
	"net/http"

	"davserve/internal/members"
)

// errEnough ends a walk early.
var errEnough = errors.New("enough")

// A member is a resource as a PROPFIND describes it.
type member = members.Member

// walk calls a function for the resource at a path and for each one below it, until the function returns an error. The
// tree may change meanwhile.
func (h *Handler) walk(ctx context.Context, path string, principal *string, visit func(member) error) error {
	self, waiting, err := h.list(ctx, path, principal)
	if err != nil {
		return err
	}
	if err := visit(self); err != nil {
		return err
	}
	for len(waiting) > 0 {
		last := waiting[len(waiting)-1]
		waiting = waiting[:len(waiting)-1]
		if err := visit(last); err != nil {
			return err
		}
		if !last.IsCollection {
			continue
		}
		_, more, err := h.list(ctx, last.Href, principal)
		if err != nil && !errors.Is(err, statusError(http.StatusNotFound)) { // else it was removed meanwhile
			return err
		}
		waiting = append(waiting, more...)
	}
	return nil
}

// list returns the resource at a path and its members.
func (h *Handler) list(ctx context.Context, path string, principal *string) (self member, found []member, err error) {
	response, err := h.ask(ctx, members.Request(path, principal, idleToken))
	if err != nil {
		return member{}, nil, err
	}
	if 400 <= response.Status && response.Status < 500 {
		return member{}, nil, statusError(response.Status) // It does not exist, or has no path that a resource may have.
	}
	self, found, ok := members.Of(*response)
	if !ok {
		return member{}, nil, fmt.Errorf("the list of members of %q has the status %d", path, response.Status)
	}
	return self, found, nil
}
