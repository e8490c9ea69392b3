package davserve

import (
	"context"
	"errors"
	"fmt"
	"sync"
	"time"

	"davserve/internal/metrics"
	"davserve/internal/scrub"
)

// ErrInCheck says that a check is under way.
var ErrInCheck = errors.New("another check is under way")

// errBroken says that a check has panicked.
var errBroken = errors.New("the server failed in the middle of it")

// ErrNothingOnDisk says that a handler without a folder has no file on a disk that could be damaged.
var ErrNothingOnDisk = errors.New("without a folder there is nothing to check")

// A CheckFinding is what a check has found at a path: a file that is damaged, that changed each time that it was read, or
// that was not read for another reason.
type CheckFinding = scrub.Finding

// What a check finds.
const (
	CheckDamaged = scrub.Damaged
	CheckChanged = scrub.Changed
	CheckUnread  = scrub.Unread
)

// CheckCounts are what a check has done.
type CheckCounts = scrub.Counts

// CheckOptions say how files are checked.
type CheckOptions struct {
	// Rate is how many bytes a second are read at most. 0: as many as davd reads in half of the time.
	Rate int64
	// Report gets each file that is not right, while the check goes on. Nil: the log has the damaged ones.
	Report func(CheckFinding)
	// Progress gets the state when the check has begun, and then again while it goes on. Nil: nobody wants to know.
	Progress func(CheckState)
}

// A CheckState says what is known of a check.
type CheckState struct {
	State string     `json:"state"` // none, running, done (all files were read or reported), or failed (it ended early)
	Began *time.Time `json:"began,omitempty"`
	Ended *time.Time `json:"ended,omitempty"`
	CheckCounts
	Error string `json:"error,omitempty"` // why it ended early
}

// checks are what a handler knows of its checks.
type checks struct {
	mu       sync.Mutex
	running  *scrub.Progress // nil: none is under way
	began    time.Time       // of the one that is under way
	last     CheckState      // the last one that has ended
	lastDone CheckState      // the last one that went over all files
	results  *metrics.Vec[metrics.Counter]
}

// The results of a check in the metrics.
const (
	resultRight   = "right"
	resultDamaged = "damaged"
	resultPartial = "partial"
	resultFailed  = "failed"
)

func newChecks() *checks {
	c := &checks{results: metrics.NewCounters("result")}
	for _, result := range []string{resultRight, resultDamaged, resultPartial, resultFailed} {
		c.results.With(result) // So that it is there from the start.
	}
	return c
}

// CheckFiles has davd read every file in the folder, so that it verifies the digest of each block, while requests are
// served. The access rules hide nothing. One part of a file at a time is read, at most at the rate, and when davd has
// nothing else to do, if that is soon. One check at a time can be made.
//
// The state that it returns has what was found. If the error is not nil, the check has ended early: because ctx is done, or
// davd does not answer. What is made, removed or moved meanwhile may be read or not.
func (h *Handler) CheckFiles(ctx context.Context, options CheckOptions) (state CheckState, err error) {
	if h.options.Folder == "" {
		return CheckState{State: "none"}, ErrNothingOnDisk
	}
	operator, err := h.engine.NewOperator()
	if err != nil {
		return CheckState{State: "none"}, err
	}
	progress, err := h.checks.begin()
	if err != nil {
		return h.checks.state(), err
	}
	h.options.Log.Print("a check of all files begins")
	err = errBroken
	defer func() { // The next check may begin, also after a panic.
		state = h.checks.end(err)
		h.options.Log.Print(state.summary())
	}()
	err = scrub.Run(ctx, scrub.Options{
		Store: operator, Path: h.options.Prefix + "/", Rate: options.Rate, Progress: progress,
		Tick: h.checks.ticker(options.Progress),
		Report: func(found CheckFinding) {
			if found.Kind == CheckDamaged {
				h.options.Log.Printf("the file %q is damaged: it cannot be read", found.Path)
			}
			if options.Report != nil {
				options.Report(found)
			}
		},
	})
	return state, err
}

// progressPause is how long it takes until progress is passed on again.
const progressPause = 200 * time.Millisecond

// ticker returns a function that passes the state on, if it has not done so for a while.
func (c *checks) ticker(pass func(CheckState)) func() {
	if pass == nil {
		return nil
	}
	var last time.Time
	return func() {
		if time.Since(last) >= progressPause {
			last = time.Now()
			pass(c.state())
		}
	}
}

// Checked returns what is known of the check that is under way, or else of the last one.
func (h *Handler) Checked() CheckState { return h.checks.state() }

// begin counts a check as under way, unless there is one.
func (c *checks) begin() (*scrub.Progress, error) {
	c.mu.Lock()
	defer c.mu.Unlock()
	if c.running != nil {
		return nil, ErrInCheck
	}
	c.running, c.began = new(scrub.Progress), time.Now().UTC()
	return c.running, nil
}

// end keeps how the check ended, and returns it.
func (c *checks) end(err error) CheckState {
	c.mu.Lock()
	defer c.mu.Unlock()
	began, ended := c.began, time.Now().UTC()
	c.last = CheckState{State: "done", Began: &began, Ended: &ended, CheckCounts: c.running.Counts()}
	c.running = nil
	switch {
	case errors.Is(err, context.Canceled):
		c.last.State, c.last.Error = "failed", "it was interrupted"
	case err != nil:
		c.last.State, c.last.Error = "failed", err.Error()
	default:
		c.lastDone = c.last
	}
	c.results.With(c.last.result()).Add(1)
	return c.last
}

// state returns what is known of the check that is under way, or else of the last one.
func (c *checks) state() CheckState {
	c.mu.Lock()
	defer c.mu.Unlock()
	switch {
	case c.running != nil:
		began := c.began
		return CheckState{State: "running", Began: &began, CheckCounts: c.running.Counts()}
	case c.last.State == "":
		return CheckState{State: "none"}
	}
	return c.last
}

// result returns the result of a check that has ended, for the metrics. Damage counts more than an early end.
func (s CheckState) result() string {
	switch {
	case s.Damaged > 0:
		return resultDamaged
	case s.State != "done":
		return resultFailed
	case s.Changed > 0 || s.Unread > 0:
		return resultPartial
	}
	return resultRight
}

// summary says in a line how a check ended.
func (s CheckState) summary() string {
	counts := fmt.Sprintf("%d files, %d bytes, %d damaged, %d changed meanwhile, %d not read, in %v",
		s.Files, s.Bytes, s.Damaged, s.Changed, s.Unread, s.Ended.Sub(*s.Began).Round(time.Millisecond))
	if s.Error != "" {
		return fmt.Sprintf("the check ended early: %s (%s)", s.Error, counts)
	}
	return "the check is done: " + counts
}

// writeTo writes the metrics of the checks.
func (c *checks) writeTo(e *metrics.Encoder) {
	c.mu.Lock()
	isRunning, done := c.running != nil, c.lastDone
	c.mu.Unlock()
	running := 0.0
	if isRunning {
		running = 1
	}
	e.Gauge("davserve_check_running", "1 while all files are checked.", running)
	e.Counters("davserve_checks_total", "Checks of all files that have ended, by their results.", c.results)
	if done.State == "" {
		return
	}
	took := done.Ended.Sub(*done.Began)
	e.Gauge("davserve_check_end_time_seconds", "When the last check of all files ended, in seconds since 1970.",
		float64(done.Ended.UnixMilli())/1000)
	e.Gauge("davserve_check_duration_seconds", "How long the last check of all files took.", took.Seconds())
	e.Gauge("davserve_check_files", "Files that the last check has read, and that are right.", float64(done.Files))
	e.Gauge("davserve_check_bytes", "Bytes of these files.", float64(done.Bytes))
	e.Gauge("davserve_check_damaged_files", "Files that the last check could not read.", float64(done.Damaged))
	e.Gauge("davserve_check_unchecked_files", "Files that the last check has not read whole for another reason.",
		float64(done.Changed+done.Unread))
}
