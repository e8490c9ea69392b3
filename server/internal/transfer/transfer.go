// Package transfer copies a folder of files into the store of a davd, and back.
//
// Both directions may be run again after an interruption: a file that is there already, with the same length and the same
// time, is not copied again. Nothing is ever removed.
package transfer

import (
	"context"
	"errors"
	"fmt"
	"sync"
	"sync/atomic"

	"davserve/internal/davd"
	"davserve/internal/frame"
)

const (
	// inFlight is how many files are copied at once. What davd gets together shares one sync and one commit.
	inFlight = 64
	// piece is how many bytes are copied in one frame.
	piece = 256 << 10
	// noToken is the lock token of each request, because none creates a lock.
	noToken = "urn:davserve:none"
)

// A Store is where files are imported to and exported from.
type Store interface {
	// Do sends a frame and returns the reply to it. A frame that failed is a *davd.StatusError.
	Do(ctx context.Context, f frame.Frame) (frame.Reply, error)
	// StartBody begins a body without bytes.
	StartBody(ctx context.Context) (Body, error)
	// SetModified sets when the resource at a path was last modified, in seconds since 1970.
	SetModified(ctx context.Context, path string, time uint64) error
}

// A Body is the body of a request that a store holds while it arrives in pieces.
type Body interface {
	// Add adds a piece at the end of the body.
	Add(ctx context.Context, piece []byte) error
	// Do adds a last piece, unless it is empty, sends a request with this body, and drops it.
	Do(ctx context.Context, last []byte, request *frame.Request) (frame.Reply, error)
	// Drop removes the body from the store, unless Do has. It does not wait for that.
	Drop()
}

// Of returns the store of an engine.
func Of(engine *davd.Engine) Store { return store{engine} }

type store struct{ *davd.Engine }

// StartBody implements Store.
func (s store) StartBody(ctx context.Context) (Body, error) {
	body, err := s.Engine.StartBody(ctx)
	if err != nil {
		return nil, err
	}
	return body, nil
}

// Options say what is copied.
type Options struct {
	Store Store
	// Dir is the folder of files.
	Dir string
	// Path is that of the directory in the store, as Parse returns it.
	Path string
	// Without is the folder of the store, in which nothing is read or written. Empty: there is none.
	Without string
	// Progress counts what was done. Nil: nobody wants to know.
	Progress *Progress
	// Report gets each path that was not copied, and why. It is called once at a time.
	Report func(path string, reason error)
}

// Progress counts what an import or an export has done. It may be read meanwhile.
type Progress struct {
	Files       atomic.Int64 // that were copied
	Bytes       atomic.Int64 // of these, and of those that are being copied
	Directories atomic.Int64 // that were made
	Skipped     atomic.Int64 // files that were there already
	Passed      atomic.Int64 // bytes of these
	Failed      atomic.Int64 // files, directories and others that were not copied
	Seen        atomic.Int64 // files, directories and others, with the outermost directory
}

// A run is an import or an export under way.
type run struct {
	Options
	ctx  context.Context
	stop context.CancelFunc
	jobs chan job
	done sync.WaitGroup // of those who do the jobs

	mu      sync.Mutex
	failure error // what ended it
}

// A job is one file or directory. The buffer has the length of a piece, for the time of the job.
type job func(buffer []byte)

// start returns a run whose jobs are done from now on. The caller must end it.
func start(ctx context.Context, o Options) *run {
	if o.Progress == nil {
		o.Progress = new(Progress)
	}
	if o.Report == nil {
		o.Report = func(string, error) {}
	}
	r := &run{Options: o, jobs: make(chan job)}
	r.ctx, r.stop = context.WithCancel(ctx)
	for i := 0; i < inFlight; i++ {
		r.done.Add(1)
		go func() {
			defer r.done.Done()
			var buffer []byte
			for do := range r.jobs {
				if buffer == nil {
					buffer = make([]byte, piece)
				}
				do(buffer)
			}
		}()
	}
	return r
}

// end waits until all jobs are done, and returns what ended the run early, or nil.
func (r *run) end() error {
	close(r.jobs)
	r.done.Wait()
	defer r.stop()
	if r.failure == nil {
		return r.ctx.Err()
	}
	return r.failure
}

// settle counts and reports a path that was not copied, if there is a reason. Unless the reason is one of this path only,
// the run ends.
func (r *run) settle(path string, err error) {
	if err == nil {
		return
	}
	r.mu.Lock()
	defer r.mu.Unlock()
	var one *pathError
	if errors.As(err, &one) {
		r.Progress.Failed.Add(1)
		r.Report(path, err)
		return
	}
	if r.failure == nil && r.ctx.Err() == nil {
		r.failure = err
	}
	r.stop()
}

// A pathError is a reason why one path was not copied. The others may be.
type pathError struct {
	reason string
	cause  error
}

// Error implements error.
func (e *pathError) Error() string { return e.reason }

// Unwrap returns what caused the error, or nil.
func (e *pathError) Unwrap() error { return e.cause }

// onlyHere returns an error as one of a single path.
func onlyHere(err error) error {
	return &pathError{reason: err.Error(), cause: err}
}

func onlyHeref(format string, arguments ...any) error {
	return onlyHere(fmt.Errorf(format, arguments...))
}

// A branch is a directory in which something is still to be done.
type branch struct {
	above   *branch // nil: this is the outermost one
	pending atomic.Int64
	finish  func() // is called when all in it is done
}

// within begins a branch within another one. The caller must release it once.
func (b *branch) within(above *branch) {
	if above != nil {
		above.hold()
	}
	b.above = above
	b.hold()
}

// hold keeps a branch open until one more call of release.
func (b *branch) hold() { b.pending.Add(1) }

// release finishes a branch that nobody holds any more, and so those above it.
func (b *branch) release() {
	for b != nil && b.pending.Add(-1) == 0 {
		b.finish()
		b = b.above
	}
}
