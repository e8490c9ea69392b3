package davserve

import (
	"errors"
	"net/http"

	"davserve/internal/davd"
)

// checkUpload refuses a long upload before its body is read, if the access rules or the quota would refuse it afterwards.
// So nobody fills the disk with what they may not write, and a client that waits for 100 Continue need not send the body.
// It only looks: davd judges the request itself once the body is there.
func (h *Handler) checkUpload(r *http.Request) error {
	if !isAwaited(r) && 0 <= r.ContentLength && r.ContentLength <= piece {
		return nil
	}
	allowed, err := h.engine.Explain(r.Context(), h.principal(r), pathOf(r))
	var failed *davd.StatusError
	switch {
	case errors.As(err, &failed) && failed.Status < 500:
		return nil // The path is wrong. What that means for the request is for davd to say.
	case err != nil:
		return err
	case !allowed.Write:
		return statusError(http.StatusForbidden)
	}
	return h.checkRoom(r)
}

// isAwaited reports whether the client waits for 100 Continue before it sends the body.
func isAwaited(r *http.Request) bool { return r.Header.Get("Expect") != "" }

// checkRoom refuses an upload of a known length for which the quota has no room now.
func (h *Handler) checkRoom(r *http.Request) error {
	if h.quota == nil || r.ContentLength < 0 {
		return nil
	}
	most, exact := h.growth(r, r.ContentLength)
	if h.quota.mayTake(most) {
		return nil
	}
	used, err := h.used(r.Context())
	if err != nil {
		return err
	}
	n, err := exact()
	if err != nil {
		return err
	}
	if n > 0 && n > h.quota.total-used {
		return statusError(http.StatusInsufficientStorage)
	}
	return nil
}
