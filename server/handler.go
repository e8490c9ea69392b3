// Package davserve serves WebDAV (RFC 4918) over HTTP.
//
// A Handler speaks HTTP and XML. What it reads it passes on to a process of its own, davd, whose engine is proved: each
// method changes and returns exactly what its definition says. Without a folder, davd holds files and locks in memory,
// and they are lost when it ends.
package davserve

import (
	"context"
	"errors"
	"fmt"
	"net"
	"net/http"
	"path"
	"strconv"
	"strings"
	"time"

	"davserve/internal/davd"
	"davserve/internal/detach"
	"davserve/internal/frame"
	"davserve/internal/limit"
	"davserve/internal/share"
)

// A Handler is a WebDAV server. New makes one.
type Handler struct {
	options Options
	host    string // of the public URL; empty: none
	engine  *davd.Engine
	quota   *quota // nil: no limit
	trees   trees
	checks  *checks
	memory  *share.Pool // bytes of XML and of lists
	turns   *share.Pool // lists that davd makes and that may be long
	uploads *share.Pool // bytes of uploads under way
	sizes   *sizes
}

// New starts davd and returns a handler over it. The caller must close the handler. With a folder, New waits until davd
// has loaded it. When ctx is done before, New fails. Later ctx has no effect. If the text of the access rules has none,
// the error is a *RightsError.
func New(ctx context.Context, options Options) (*Handler, error) {
	options, err := options.complete()
	if err != nil {
		return nil, err
	}
	host, err := publicHost(options.PublicURL, options.Prefix)
	if err != nil {
		return nil, err
	}
	engine, err := davd.Start(ctx, davd.Config{
		Program: options.Davd,
		Args:    arguments(options),
		Folder:  options.Folder,
		Lossy:   options.AcceptLoss,
		Memory:  options.Memory,
		Rights:  options.Rights,
		Log:     options.Log,

		HangTimeout:    options.HangTimeout,
		MaxClockChange: options.MaxClockChange,
		Machine:        options.machine,
	})
	if err != nil {
		return nil, err
	}
	h := &Handler{
		options: options, host: host, engine: engine, checks: newChecks(),
		memory:  share.NewPool(options.XMLMemory, options.ClientShare, waitingShares),
		turns:   share.NewPool(listsAtOnce, options.ClientShare, waitingShares),
		uploads: share.NewPool(options.MaxUploads, options.ClientShare, waitingShares),
		sizes:   newSizes(),
	}
	if options.Quota > 0 {
		h.quota = newQuota(options.Quota, h.used)
	}
	if options.Folder != "" && h.quota != nil {
		h.quota.bound = options.Quota // So that davd is asked before the first bytes are written.
	}
	if err := h.greet(ctx); err != nil {
		return nil, err
	}
	return h, nil
}

// arguments returns the arguments of davd without the folder.
func arguments(options Options) []string {
	var arguments []string
	if options.Prefix != "" {
		arguments = append(arguments, "-prefix", options.Prefix)
	}
	quota := options.Quota
	if options.reportsFree() {
		quota = noQuota
	}
	if quota > 0 {
		arguments = append(arguments, "-quota", strconv.FormatInt(quota, 10))
	}
	return arguments
}

// greet makes sure that the program that was started is davd.
func (h *Handler) greet(ctx context.Context) error {
	ctx, cancel := context.WithTimeout(ctx, 10*time.Second)
	defer cancel()
	if err := h.Check(ctx); err != nil {
		cancel()
		h.Close(ctx)
		return fmt.Errorf("the program %s does not answer as davd does: %w", h.options.Davd, err)
	}
	return nil
}

// Close ends davd. No request may be under way. When ctx is done before davd has ended, davd is killed.
func (h *Handler) Close(ctx context.Context) error {
	return h.engine.Close(ctx)
}

// A RightsError says that a text has no access rules. Its Reason has one or more lines, which name the line of the text or
// the number of the rule that is wrong, if it is one.
type RightsError = davd.RightsError

// A StatusError says with which HTTP status davd failed what it was asked for.
type StatusError = davd.StatusError

// SetRights replaces the access rules. Requests that davd gets later are served by the new ones, also by a davd that is
// started again. A request under way that needs several answers of davd, such as a long GET, may be served by both. While
// davd does not run, SetRights waits.
//
// If the text has no rules, the error is a *RightsError. After an error the old rules stay. Only after a *StatusError with
// 507, for which memory ran out, nobody knows which ones hold, until rules are set or davd is started again, and gets the
// old ones. When ctx is done, SetRights returns its error, but it waits for the answer of davd to a text that was sent.
func (h *Handler) SetRights(ctx context.Context, text string) error {
	return h.engine.SetRights(ctx, text)
}

// Check reports whether davd answers.
func (h *Handler) Check(ctx context.Context) error {
	_, err := h.engine.Do(ctx, frame.Held{})
	return err
}

// ConnContext is for the field of that name of an http.Server. With it a connection is closed whose client stops
// sending or receiving in the middle of a body.
func ConnContext(ctx context.Context, c net.Conn) context.Context {
	return limit.ConnContext(ctx, c)
}

// A statusError is an error that is answered with an HTTP status.
type statusError int

// Error implements error.
func (e statusError) Error() string {
	return fmt.Sprintf("%d %s", int(e), http.StatusText(int(e)))
}

// ServeHTTP implements http.Handler. A request that changes something is served once it has arrived whole, whatever its
// client does then.
func (h *Handler) ServeHTTP(w http.ResponseWriter, r *http.Request) {
	w.Header().Set("X-Content-Type-Options", "nosniff")
	r, memory := h.withHolding(detach.Request(r))
	defer memory.end()
	if err := h.serve(w, r); err != nil {
		h.fail(w, r, err)
	}
}

// serve answers a request, or returns an error for which nothing was written yet.
func (h *Handler) serve(w http.ResponseWriter, r *http.Request) error {
	if !h.isBelowPrefix(r.URL.Path) {
		return statusError(http.StatusNotFound)
	}
	if err := checkDepth(r.Header); err != nil {
		return err
	}
	if err := h.checkDestination(r); err != nil {
		return err
	}
	if err := h.checkSegments(r); err != nil {
		return err
	}
	switch r.Method {
	case http.MethodGet, http.MethodHead:
		return h.get(w, r)
	case "PROPFIND":
		return h.propfind(w, r)
	case "PROPPATCH", "LOCK":
		return h.withXML(w, r)
	case http.MethodPut, http.MethodPatch:
		return h.upload(w, r)
	case "COPY":
		return h.copy(w, r)
	case http.MethodOptions, http.MethodDelete, "MKCOL", "MOVE", "UNLOCK":
		return h.withoutBody(w, r)
	case http.MethodPost, http.MethodTrace, http.MethodConnect:
		return statusError(http.StatusMethodNotAllowed)
	}
	return statusError(http.StatusNotImplemented) // whatever the body is (RFC 9110, section 9.1)
}

// isBelowPrefix reports whether a path is that of the prefix or below it. It may leave the prefix by .. and return.
func (h *Handler) isBelowPrefix(asked string) bool {
	asked = path.Clean("/" + asked)
	return h.options.Prefix == "" || asked == h.options.Prefix || strings.HasPrefix(asked, h.options.Prefix+"/")
}

// fail answers a request that failed. Each error has one status. If nobody knows the response, the connection is closed
// without one.
func (h *Handler) fail(w http.ResponseWriter, r *http.Request, err error) {
	var own statusError
	var failed *davd.StatusError
	switch {
	case errors.As(err, &own):
		h.failWith(w, r, int(own))
	case errors.As(err, &failed) && failed.Status >= 400 && failed.Status < 600:
		h.failWith(w, r, failed.Status)
	case errors.Is(err, davd.ErrKept), errors.Is(err, davd.ErrUnknown):
		panic(http.ErrAbortHandler) // Any response could be wrong.
	case errors.Is(err, share.ErrBusy), errors.Is(err, errChanged):
		w.Header().Set("Retry-After", "1")
		h.failWith(w, r, http.StatusServiceUnavailable)
	case errors.Is(err, davd.ErrFull):
		h.failWith(w, r, http.StatusInsufficientStorage)
	case errors.Is(err, davd.ErrLost), errors.Is(err, davd.ErrDown), errors.Is(err, davd.ErrClosed):
		w.Header().Set("Retry-After", "1")
		h.failWith(w, r, http.StatusServiceUnavailable)
	case r.Context().Err() != nil:
		panic(http.ErrAbortHandler) // The client has left.
	case errors.Is(err, errVanished):
		w.Header().Set("Connection", "close")
		h.failWith(w, r, http.StatusBadRequest)
	default:
		h.options.Log.Printf("%s %q failed: %v", r.Method, r.URL.EscapedPath(), err)
		h.failWith(w, r, http.StatusInternalServerError)
	}
}

// failWith answers with a status, and with a line that people can read.
func (h *Handler) failWith(w http.ResponseWriter, r *http.Request, status int) {
	if status == http.StatusMethodNotAllowed {
		w.Header().Set("Allow", h.allowed(r))
	}
	text := strconv.Itoa(status) + " " + http.StatusText(status) + "\n"
	w.Header().Set("Content-Type", "text/plain; charset=utf-8")
	w.Header().Set("Content-Length", strconv.Itoa(len(text)))
	w.WriteHeader(status)
	if r.Method != http.MethodHead {
		w.Write([]byte(text))
	}
}
