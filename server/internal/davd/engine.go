// Package davd runs the program davd and exchanges batches of frames with it.
//
// davd is started again when it ends. What it held in memory is then lost: the files, the locks and the bodies that
// were arriving. A davd over a folder loses only the bodies. It names the last batch that it kept when it starts, and so
// it is known which of the frames that were not answered were done.
package davd

import (
	"context"
	"errors"
	"fmt"
	"log"
	"sync"
	"time"

	"davserve/internal/clock"
	"davserve/internal/frame"
)

var (
	// ErrLost says that davd ended before it replied. What the frame asked for was not done, or davd holds nothing of
	// it any more.
	ErrLost = errors.New("davd ended before it replied")
	// ErrFull says that davd ended before it replied, because the disk of its folder, or the quota there, is full. What
	// the frame asked for was not done.
	ErrFull = errors.New("the disk of the folder is full")
	// ErrKept says that davd ended before it replied, and what the frame asked for was done and kept. Nobody knows the
	// reply.
	ErrKept = errors.New("davd ended before it replied, and has kept what it did")
	// ErrUnknown says that davd ended before it replied. Nobody knows whether what the frame asked for was done.
	ErrUnknown = errors.New("davd ended before it replied, and may have kept what it did")
	// ErrDown says that davd does not run at present. The frame was not sent.
	ErrDown = errors.New("davd does not run")
	// ErrClosed says that the engine is closed.
	ErrClosed = errors.New("the engine is closed")
	// ErrDropped says that davd has done what the frame asks for, and that its reply was dropped.
	ErrDropped = frame.ErrDropped
	// ErrInBackup says that a backup is under way.
	ErrInBackup = errors.New("another backup is under way")
)

// Errors of a start over a folder.
var (
	// ErrNoStore says that the folder has other contents than those of davd, or is damaged. It is left as it is.
	ErrNoStore = errors.New("the folder is refused")
	// ErrInUse says that another process uses the folder.
	ErrInUse = errors.New("the folder is in use by another process")
	// ErrNoAccess says that the folder cannot be read or written.
	ErrNoAccess = errors.New("the folder cannot be read or written")
)

// errNoMemory fails a frame that would add something to a davd that is full.
var errNoMemory = &StatusError{Status: 507}

// A StatusError is the reply of davd to a frame that failed, or 507 in its place if davd has no memory for the frame.
type StatusError struct {
	Status int // an HTTP status
}

// Error implements error.
func (e *StatusError) Error() string {
	return fmt.Sprintf("davd failed a frame with status %d", e.Status)
}

// Config says how davd is run.
type Config struct {
	Program string   // a path, or a name to look up in PATH
	Args    []string // as docs/FRAMES.md lists them
	Folder  string   // the folder that it keeps, its last argument; empty: it holds everything in memory
	Lossy   bool     // the first davd serves its folder even if that has lost its last batches
	Memory  int64    // limit of its address space in bytes, over a folder once it is loaded; 0: none
	Rights  string   // the text of the access rules, in TOML; empty: none, and each principal may do everything
	Log     *log.Logger
	// HangTimeout is how long davd may stand still although it has something to do, until it is killed and started again.
	// 0: DefaultHangTimeout. On other systems than Linux it is not killed.
	HangTimeout time.Duration
	// MaxClockChange is how far the clock of the machine may be from the last time of the folder at a start, and how far
	// away it is followed while davd runs. 0: clock.MaxChange.
	MaxClockChange time.Duration
	Machine        func() clock.Reading // the clocks of the machine; nil: those of this one

	pauses  pauses // zero: the defaults
	isFirst bool   // the davd is the first one of its engine
}

// arguments returns all arguments of davd.
func (c Config) arguments() []string {
	arguments := append([]string(nil), c.Args...)
	if c.Folder != "" {
		arguments = append(arguments, c.Folder)
	}
	return arguments
}

// first returns how the first davd is run. Only that one may serve a folder that has lost something: a loss later on has to
// be noticed.
func (c Config) first() Config {
	c.isFirst = true
	if c.Lossy {
		return c.with("-accept-loss")
	}
	return c
}

// with returns how davd is run with more arguments.
func (c Config) with(arguments ...string) Config {
	c.Args = append(append([]string(nil), c.Args...), arguments...)
	return c
}

// An Engine is a davd that is started again whenever it ends. Its methods may be called at the same time.
type Engine struct {
	config Config
	clock  *clock.Clock
	stats  *stats
	closed chan struct{} // closed by Close
	ended  chan struct{} // closed when davd has ended for good

	mu      sync.Mutex
	process *process // nil: not running
	outage  *outage  // nil: no call waits for the next davd over a folder
	pausing bool     // davd does not run, and calls fail until it does
	loading bool     // the next davd loads its folder
	closing bool
	writing bool          // somebody writes a batch
	paused  bool          // no batch is sent
	idle    chan struct{} // closed when davd, in a pause, has answered what it was sent; nil: nobody waits for that
	backup  bool          // a backup is under way
	waiting []*call
	spares  []*Body // bodies that process holds for the uploads to come
	queued  uint64  // how many calls were queued
	started uint64  // how many times davd was started again
	rights  *string // the text of the access rules that the next davd gets; nil: none
}

// Start starts davd. An error says why it could not be started. Over a folder it may be ErrNoStore, ErrInUse, ErrNoAccess
// or a *clock.FarError, and Start waits until davd has loaded the folder or ctx is done. If the text of the access rules
// has none, it is a *RightsError.
func Start(ctx context.Context, config Config) (*Engine, error) {
	if config.pauses == (pauses{}) {
		config.pauses = defaultPauses
	}
	if config.HangTimeout == 0 {
		config.HangTimeout = DefaultHangTimeout
	}
	if config.Folder != "" {
		// One part for all davds: what clients have read from one, they may go on to read from the next.
		tagged, err := config.tagged()
		if err != nil {
			return nil, fmt.Errorf("davd cannot be started: %w", err)
		}
		config = tagged
	}
	times := config.newClock()
	var rights *string
	if config.Rights != "" {
		rights = &config.Rights
	}
	isNew := config.Folder != "" && hasDatabase(config.Folder) != nil
	others := isNew && hasOthers(config.Folder)
	isUnnumbered := config.Folder != "" && !isNew && hasNoNumber(config.Folder)
	process, err := open(config.first(), 0, rights, ctx.Done(), times)
	if errors.Is(err, errStopped) {
		return nil, ctx.Err()
	}
	if err != nil {
		return nil, err
	}
	if isNew {
		config.Log.Printf("the folder %s had no store: a new one was made", config.Folder)
	}
	if others {
		config.Log.Printf("the folder %s has other files, which are not served: davserve import copies files into a store", config.Folder)
	}
	if isUnnumbered {
		config.Log.Printf("the folder %s had neither last nor last-wal, as one of version 1: if it was restored, "+
			"see that it got all files of the backup (meta.db, meta.db-wal, data, last, last-wal)", config.Folder)
	}
	if config.Lossy && config.Folder != "" {
		config.Log.Printf("the folder %s is served even if its last changes are lost, as -accept-loss says: leave it out at the next start", config.Folder)
	}
	e := &Engine{
		config: config, process: process, clock: times, rights: rights,
		stats: newStats(), closed: make(chan struct{}), ended: make(chan struct{}),
	}
	go e.supervise(process)
	return e, nil
}

// Started returns how many times davd was started again. If the number is the same before one call and after another,
// the same davd answered both.
func (e *Engine) Started() uint64 {
	e.mu.Lock()
	defer e.mu.Unlock()
	return e.started
}

// Close ends davd, once it has answered what it was sent. When ctx is done before that, davd is killed.
func (e *Engine) Close(ctx context.Context) error {
	e.mu.Lock()
	process := e.process
	if !e.closing {
		e.closing = true
		close(e.closed)
		e.failWaiting(ErrClosed)
		e.failOutage()
		if process != nil && !e.writing {
			process.input.Close()
		}
	}
	e.mu.Unlock()
	select {
	case <-e.ended:
		return nil
	case <-ctx.Done():
		if process != nil {
			process.kill()
		}
		<-e.ended
		return fmt.Errorf("davd was killed: %w", ctx.Err())
	}
}

// Do sends a frame and returns the reply to it. A frame that failed is a *StatusError.
//
// If davd ends meanwhile, a frame that only reads is sent once more, to the next davd. Over a folder any other frame is
// ErrKept if its batch was kept, and otherwise ErrLost or ErrFull. If the next davd is not in service in time, it is
// ErrUnknown, and one that only reads is ErrLost.
//
// When ctx is done, Do returns its error, but it waits for the reply to a frame that was sent and changes something, also
// while that is written. A davd that stands still ends this wait: it is killed after the HangTimeout of the Config.
func (e *Engine) Do(ctx context.Context, f frame.Frame) (frame.Reply, error) {
	return e.do(ctx, newCall(f))
}

// Fitting says what is called for a frame until it is answered. Neither function may wait.
type Fitting struct {
	// Fits gets the length of the reply before that is read. If it returns false, the reply is dropped. It may be called
	// after DoFitting has returned. Nil: the reply fits.
	Fits func(bytes int) bool
	// Over is called once: when the reply was read, or when there will be none. That may be after DoFitting has returned.
	// Nil: nothing is called.
	Over func()
}

// DoFitting does what Do does. If the reply does not fit, the error is ErrDropped.
func (e *Engine) DoFitting(ctx context.Context, f frame.Frame, fitting Fitting) (frame.Reply, error) {
	c := newCall(f)
	c.fitting = fitting
	return e.do(ctx, c)
}

func (e *Engine) do(ctx context.Context, c *call) (frame.Reply, error) {
	replies, err := e.exchange(ctx, c)
	if err != nil {
		return nil, err
	}
	return decode(replies[0])
}

// exchange sends a call as Do does, and returns the bytes of the replies, one to each frame.
func (e *Engine) exchange(ctx context.Context, c *call) ([][]byte, error) {
	e.submit(c)
	select {
	case <-c.done:
	case <-ctx.Done():
		isWithdrawn := e.withdraw(c)
		if isWithdrawn {
			c.over()
		}
		if isWithdrawn || c.reads {
			return nil, ctx.Err()
		}
		<-c.done
	}
	return c.replies, c.err
}

// decode decodes a reply. A frame that failed is a *StatusError.
func decode(b []byte) (frame.Reply, error) {
	reply, err := frame.Decode(b)
	if err != nil {
		return nil, fmt.Errorf("a reply of davd: %w", err)
	}
	if failed, ok := reply.(frame.Failed); ok {
		return nil, &StatusError{Status: failed.Status}
	}
	return reply, nil
}

// submit queues a call, and has a batch written if nobody writes one. It does not wait for that: davd may not read.
func (e *Engine) submit(c *call) {
	e.mu.Lock()
	if err := e.refusal(c); err != nil {
		e.mu.Unlock()
		c.finish(nil, err)
		return
	}
	e.queued++
	c.place = e.queued
	if c.holds {
		e.waiting = append([]*call{c}, e.waiting...)
	} else {
		e.waiting = append(e.waiting, c)
	}
	batch := e.next()
	e.mu.Unlock()
	if batch != nil {
		go e.write(batch)
	}
}

// refusal returns why a call cannot be queued at present.
func (e *Engine) refusal(c *call) error {
	switch {
	case e.closing:
		return ErrClosed
	case c.only != nil && c.only != e.process:
		return c.only.lost
	case e.pausing && !c.sets:
		return ErrDown
	case e.process != nil && e.process.refuses(c) && !e.renew():
		return errNoMemory
	}
	return nil
}

// withdraw removes a call that was not sent yet from the queue. One that was sent is not sent again, if who waits for its
// reply waits on.
func (e *Engine) withdraw(c *call) bool {
	e.mu.Lock()
	defer e.mu.Unlock()
	for i, other := range e.waiting {
		if other == c {
			e.waiting = append(e.waiting[:i], e.waiting[i+1:]...)
			return true
		}
	}
	c.again = c.again || c.sets
	return false
}

// next takes a batch from the queue for the caller to write, or returns nil: if nothing waits, if somebody writes
// already, in a pause, if enough batches are under way, or if the first call must wait. It is called with e.mu held.
func (e *Engine) next() *batch {
	p := e.process
	if p == nil || p.renewed || e.writing || e.paused || len(e.waiting) == 0 || len(p.sent) == cap(p.sent) {
		return nil
	}
	short := shortage{process: p}
	getsReserve := short.isFor(e.waiting[0])
	if e.mustWait(getsReserve) {
		return nil
	}
	e.writing = true
	p.number++
	p.pending++
	b := &batch{process: p, number: p.number, now: e.clock.Now()}
	b.written.Add(1)
	b.calls, e.waiting = cut(e.waiting, short.isFor)
	e.guard(b)
	if getsReserve {
		p.giveReserve(b)
	}
	for _, c := range b.calls {
		c.sentTo, c.number = p, b.number
		p.removed = p.removed || c.frees
		p.changed = p.changed || c.lasts && !c.reads
		p.isSetting = p.isSetting || c.sets
	}
	p.sent <- b
	return b
}

// write writes a batch, and starts a goroutine for what was queued meanwhile.
func (e *Engine) write(b *batch) {
	if err := b.process.write(b); err != nil {
		b.process.kill() // The reader of its output finds the end, and fails what is under way.
	}
	b.wrote = time.Now()
	e.stats.sent(b)
	b.written.Done()
	e.tellTime()
	e.mu.Lock()
	e.writing = false
	if e.closing || b.process.renewed {
		b.process.input.Close()
	}
	more := e.next()
	e.mu.Unlock()
	if more != nil {
		go e.write(more)
	}
}

// answered counts a batch as answered, and writes what waits.
func (e *Engine) answered(p *process) {
	e.mu.Lock()
	isUsed, err := p.takeBack()
	p.isBroken = p.isBroken || err != nil
	p.isGuarded = p.isBroken
	if p.pending--; p.pending == 0 {
		p.isSetting = false
		if e.idle != nil {
			close(e.idle)
			e.idle = nil
		}
	}
	e.awaitRest(p)
	b := e.next()
	e.mu.Unlock()
	if b != nil {
		go e.write(b)
	}
	e.keepReserve(p, isUsed, err)
}

// failWaiting fails each call that waits. One that sets access rules waits on while davd does not run. It is called with
// e.mu held.
func (e *Engine) failWaiting(err error) {
	var others []*call
	for _, c := range e.waiting {
		if c.sets && err == ErrDown {
			others = append(others, c)
		} else {
			c.finish(nil, err)
		}
	}
	e.waiting = others
}

// loadPart is how many times as long as it has loaded its folder a davd serves at least that is full.
const loadPart = 10

// renew has a davd that is full end, if something was removed from its folder and it has run for some time. It reports
// whether the next one will follow, which may need less memory. It is called with e.mu held.
func (e *Engine) renew() bool {
	p := e.process
	if p.renewed {
		return true
	}
	// All requests wait for a start. So it takes at most a small part of the time.
	least := e.config.pauses.full + loadPart*p.loaded.Sub(p.began)
	if e.config.Folder == "" || !p.removed || e.backup || e.paused || time.Since(p.loaded) < least {
		return false
	}
	p.renewed = true
	if !e.writing {
		p.input.Close() // davd ends when it has answered what it was sent.
	}
	return true
}

// failAdditions fails each call that waits and would add something. It is called with e.mu held.
func (e *Engine) failAdditions() {
	var others []*call
	for _, c := range e.waiting {
		if c.adds {
			c.finish(nil, errNoMemory)
		} else {
			others = append(others, c)
		}
	}
	e.waiting = others
}
