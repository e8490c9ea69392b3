// Package scrub reads every file of the store of a davd, which checks the digest of each block that it reads. It does so
// while clients use the store, slowly, and with little memory.
package scrub

import (
	"context"
	"errors"
	"fmt"
	"net/http"
	"sync/atomic"
	"time"

	"davserve/internal/davd"
	"davserve/internal/frame"
)

const (
	// piece is how many bytes are read in one frame.
	piece = 256 << 10
	// attempts is how many times a file is read that changes meanwhile.
	attempts = 3
	// noToken is the lock token of each request, because none creates a lock.
	noToken = "urn:davserve:none"
)

// A Store is what is read, as a davd.Operator is.
type Store interface {
	// Read sends a read and returns the reply to it. One that failed is a *davd.StatusError.
	Read(ctx context.Context, read frame.Read) (frame.Reply, error)
	// Each sends a request, and passes each element in the body of the response to a function.
	Each(ctx context.Context, request *frame.Request, visit func(*frame.Element)) (frame.Response, error)
	// IsBusy reports whether others use the store at present.
	IsBusy() bool
}

// Options say what is read, and how.
type Options struct {
	Store Store
	// Path is that of the outermost collection, percent-encoded, with a slash at the end.
	Path string
	// Rate is how many bytes a second are read at most. 0: as many as the store reads in half of the time.
	Rate int64
	// Progress counts what was done. Nil: nobody wants to know.
	Progress *Progress
	// Report gets what was found at a path, unless it is a file that was read. Nil: nobody wants to know.
	Report func(Finding)
	// Tick is called at the begin and after each frame. Nil: nobody wants to know.
	Tick func()

	limits limits // zero: the defaults
}

// limits bound the memory of a run, and how long it waits.
type limits struct {
	names    int           // bytes of the names that are kept
	pause    time.Duration // until what failed is tried again
	patience time.Duration // how long a davd may be away
}

var defaultLimits = limits{names: 16 << 20, pause: time.Second, patience: 6 * time.Minute}

// A Kind says what was found at a path.
type Kind string

const (
	// Damaged is a file that cannot be read: a block has not its digest, or the disk fails.
	Damaged Kind = "damaged"
	// Changed is a file that changed each time that it was read.
	Changed Kind = "changed"
	// Unread is a file that was not read, or a collection that was not listed, for another reason.
	Unread Kind = "unread"
)

// A Finding is what was found at a path.
type Finding struct {
	Kind   Kind   `json:"kind"`
	Path   string `json:"path"`             // percent-encoded, with the prefix
	Reason string `json:"reason,omitempty"` // of one that is unread
}

// Progress counts what a run has done. It may be read meanwhile.
type Progress struct {
	Read    atomic.Int64 // bytes, also of files that are not whole
	Files   atomic.Int64 // that were read whole
	Bytes   atomic.Int64 // of these
	Damaged atomic.Int64 // files
	Changed atomic.Int64 // files
	Unread  atomic.Int64 // files and collections
}

// Counts are the counts of a Progress at one time.
type Counts struct {
	Files   int64 `json:"files"`   // that were read whole, and are right
	Bytes   int64 `json:"bytes"`   // of these
	Damaged int64 `json:"damaged"` // files that cannot be read
	Changed int64 `json:"changed"` // files that changed each time that they were read
	Unread  int64 `json:"unread"`  // files that were not read, and collections that were not listed, for another reason
}

// Counts returns the counts at present.
func (p *Progress) Counts() Counts {
	return Counts{
		Files: p.Files.Load(), Bytes: p.Bytes.Load(),
		Damaged: p.Damaged.Load(), Changed: p.Changed.Load(), Unread: p.Unread.Load(),
	}
}

// A run reads one store.
type run struct {
	Options
	ctx  context.Context
	debt time.Duration // of pauses that are still to be made
}

// Run reads each file at and below a path once. When it returns nil, it has come to the end, and each file was read whole
// or was reported. Otherwise the error says why it ended early.
//
// What is there from the begin to the end at one path is read. What is made, removed or moved meanwhile may be read or not.
func Run(ctx context.Context, o Options) error {
	if o.Progress == nil {
		o.Progress = new(Progress)
	}
	if o.Report == nil {
		o.Report = func(Finding) {}
	}
	if o.Tick == nil {
		o.Tick = func() {}
	}
	if o.limits == (limits{}) {
		o.limits = defaultLimits
	}
	r := &run{Options: o, ctx: ctx}
	w := newWalk(r)
	o.Tick()
	for {
		path, err := w.next()
		if err == errEnd {
			return nil
		}
		if err == nil {
			err = r.settle(path, r.file(path))
		}
		if err != nil {
			return err
		}
	}
}

// A pathError is a reason why one path was not read. The others may be.
type pathError struct {
	kind   Kind
	reason error // nil: the kind says it
}

// Error implements error.
func (e *pathError) Error() string { return fmt.Sprintf("%s: %v", e.kind, e.reason) }

// settle counts and reports a path that was not read, and returns an error that ends the run, or nil.
func (r *run) settle(path string, err error) error {
	var one *pathError
	switch {
	case err == nil, errors.Is(err, errGone):
		return nil
	case !errors.As(err, &one):
		return err
	}
	finding := Finding{Kind: one.kind, Path: path}
	switch one.kind {
	case Damaged:
		r.Progress.Damaged.Add(1)
	case Changed:
		r.Progress.Changed.Add(1)
	default:
		r.Progress.Unread.Add(1)
		finding.Reason = one.reason.Error()
	}
	r.Report(finding)
	return nil
}

var (
	// errEnd says that there is no further file.
	errEnd = errors.New("the end")
	// errGone says that nothing exists at a path any more, or something else than before.
	errGone = errors.New("it is not there any more")
	// errChanged says that a file has changed since its first part was read.
	errChanged = errors.New("it has changed")
)

const (
	// lossesOfOne is how many times a davd may end while it has the same frame.
	lossesOfOne = 3
	// shortages is how many times davd may lack memory for a frame. The pause after each is twice as long as the one before:
	// a long list takes davd some time each time.
	shortages = 5
)

// patiently does what may be done again, until davd is back or has memory again.
func (r *run) patiently(path string, do func() error) error {
	losses, lacks, end := 0, 0, time.Now().Add(r.limits.patience)
	for {
		err := do()
		pause := r.limits.pause
		var failed *davd.StatusError
		switch {
		case err == nil:
			return nil
		case r.ctx.Err() != nil:
			return r.ctx.Err()
		case errors.Is(err, davd.ErrLost), errors.Is(err, davd.ErrUnknown):
			if losses++; losses == lossesOfOne {
				return fmt.Errorf("davd has ended %d times while it read %q: %w", losses, path, err)
			}
		case errors.Is(err, davd.ErrDown):
		case errors.As(err, &failed) && failed.Status == http.StatusInsufficientStorage && lacks < shortages:
			pause <<= lacks
			lacks++
		default:
			return err
		}
		if time.Now().After(end) {
			return err
		}
		if err := r.sleep(pause); err != nil {
			return err
		}
	}
}

func unread(reason error) error { return &pathError{kind: Unread, reason: reason} }
