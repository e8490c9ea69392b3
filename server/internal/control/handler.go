package control

import (
	"context"
	"encoding/json"
	"errors"
	"io"
	"log"
	"net/http"
	"sync"
	"syscall"
	"time"

	"davserve"
	"davserve/internal/davd"
)

// backupPath is the path of the backups.
const backupPath = "/backup"

// errBroken says that what a command does has panicked.
var errBroken = errors.New("the server failed in the middle of it")

// A Source is what an operator gives commands to, as a davserve.Handler is.
type Source interface {
	// Backup writes a backup as a tar archive. If it fails before it writes anything, the error says why none was begun.
	Backup(ctx context.Context, w io.Writer) error
	// CheckFiles has every file read. If it fails before it begins, the error says why.
	CheckFiles(ctx context.Context, options davserve.CheckOptions) (davserve.CheckState, error)
	// Checked returns what is known of the check that is under way, or else of the last one.
	Checked() davserve.CheckState
	// Locks returns all locks.
	Locks(ctx context.Context) ([]davserve.Lock, error)
	// RemoveLock removes the lock with a token. If no lock has it, the error is davserve.ErrNoLock.
	RemoveLock(ctx context.Context, token string) error
}

// A State says what is known of the last backup.
type State struct {
	State string     `json:"state"` // none, running, done or failed
	Began *time.Time `json:"began,omitempty"`
	Ended *time.Time `json:"ended,omitempty"`
	Bytes int64      `json:"bytes,omitempty"` // of the archive
	Error string     `json:"error,omitempty"`
}

// A Handler answers the requests of an operator:
//
//	POST /backup                 a backup
//	GET /backup                  the State of the last one
//	POST /check?rate=BYTES       a check of all files, as a line of JSON for each CheckEvent
//	GET /check                   the davserve.CheckState of the last one
//	GET /locks                   all locks
//	DELETE /locks?token=TOKEN    removes a lock
type Handler struct {
	source  Source
	log     *log.Logger
	serving sync.WaitGroup // the backups and checks; none is added once closing is set

	mu      sync.Mutex
	closing bool
	state   State
}

// NewHandler returns a handler of the commands to a source.
func NewHandler(source Source, log *log.Logger) *Handler {
	return &Handler{source: source, log: log, state: State{State: "none"}}
}

// ServeHTTP implements http.Handler.
func (h *Handler) ServeHTTP(w http.ResponseWriter, r *http.Request) {
	switch r.URL.Path {
	case backupPath:
		h.serveBackup(w, r)
	case filesPath:
		h.serveCheck(w, r)
	case locksPath:
		h.serveLocks(w, r)
	default:
		http.NotFound(w, r)
	}
}

// serveBackup answers POST with a backup, and GET with the state of the last one.
func (h *Handler) serveBackup(w http.ResponseWriter, r *http.Request) {
	switch r.Method {
	case http.MethodPost:
		h.backup(w, r)
	case http.MethodGet:
		h.show(w)
	default:
		refuseMethod(w, "GET, POST")
	}
}

// refuseMethod answers a request whose method is none of those that are allowed.
func refuseMethod(w http.ResponseWriter, allowed string) {
	w.Header().Set("Allow", allowed)
	http.Error(w, "405 Method Not Allowed", http.StatusMethodNotAllowed)
}

// writeJSON answers with a value as JSON.
func writeJSON(w http.ResponseWriter, value any) {
	w.Header().Set("Content-Type", "application/json")
	json.NewEncoder(w).Encode(value)
}

// show answers with the state of the last backup.
func (h *Handler) show(w http.ResponseWriter) {
	h.mu.Lock()
	state := h.state
	h.mu.Unlock()
	writeJSON(w, state)
}

// backup answers with a backup. One that fails in the middle is broken off: the chunk that ends a response is not sent.
func (h *Handler) backup(w http.ResponseWriter, r *http.Request) {
	if err := h.begin(); err != nil {
		http.Error(w, err.Error(), statusOf(err))
		return
	}
	defer h.serving.Done()
	w.Header().Set("Content-Type", "application/x-tar")
	archive := &counter{writer: w}
	err := h.write(r.Context(), archive)
	switch {
	case err != nil && archive.count > 0:
		panic(http.ErrAbortHandler)
	case err != nil:
		http.Error(w, err.Error(), statusOf(err))
	}
}

// write writes a backup. However that ends, also by a panic, the next one may begin.
func (h *Handler) write(ctx context.Context, archive *counter) (err error) {
	err = errBroken
	defer func() { h.end(archive.count, err) }()
	err = h.source.Backup(ctx, archive)
	if err != nil && ctx.Err() != nil {
		err = reasonOf(ctx)
	}
	return err
}

// begin counts a backup as under way, or returns why it may not begin.
func (h *Handler) begin() error {
	h.mu.Lock()
	defer h.mu.Unlock()
	switch {
	case h.closing:
		return errEnds
	case h.state.State == "running":
		return davd.ErrInBackup
	}
	now := time.Now().UTC()
	h.state = State{State: "running", Began: &now}
	h.serving.Add(1)
	return nil
}

// enter counts a check as under way, or returns why it may not begin.
func (h *Handler) enter() error {
	h.mu.Lock()
	defer h.mu.Unlock()
	if h.closing {
		return errEnds
	}
	h.serving.Add(1)
	return nil
}

// close lets no further backup and no further check begin.
func (h *Handler) close() {
	h.mu.Lock()
	h.closing = true
	h.mu.Unlock()
}

// end says how a backup ended.
func (h *Handler) end(bytes int64, err error) {
	now := time.Now().UTC()
	h.mu.Lock()
	began := *h.state.Began
	h.state = State{State: "done", Began: &began, Ended: &now, Bytes: bytes}
	if err != nil {
		h.state.State, h.state.Error = "failed", err.Error()
	}
	h.mu.Unlock()
	if err != nil {
		h.log.Printf("the backup failed: %v", err)
		return
	}
	h.log.Printf("the backup is done: %d bytes in %v", bytes, now.Sub(began).Round(time.Millisecond))
}

// statusOf returns the status of a command that was not done.
func statusOf(err error) int {
	switch {
	case errors.Is(err, davserve.ErrNoLock):
		return http.StatusNotFound
	case errors.Is(err, davd.ErrInBackup), errors.Is(err, davserve.ErrInCheck):
		return http.StatusConflict
	case errors.Is(err, davd.ErrFull), errors.Is(err, syscall.ENOSPC):
		return http.StatusInsufficientStorage
	case errors.Is(err, davd.ErrDown), errors.Is(err, davd.ErrClosed), errors.Is(err, davd.ErrLost), errors.Is(err, errEnds):
		return http.StatusServiceUnavailable
	}
	return http.StatusInternalServerError
}

// A counter counts what is written.
type counter struct {
	writer io.Writer
	count  int64
}

// Write implements io.Writer.
func (c *counter) Write(p []byte) (int, error) {
	n, err := c.writer.Write(p)
	c.count += int64(n)
	return n, err
}
