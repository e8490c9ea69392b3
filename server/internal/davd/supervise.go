package davd

import (
	"errors"
	"fmt"
	"io"
	"os"
	"path/filepath"
	"strings"
	"time"
)

// pauses are the times between the end of a davd and the start of the next. A davd that ran for long is followed at
// once. Each further one is waited for twice as long.
type pauses struct {
	first, greatest time.Duration
	long            time.Duration // a davd that ran for so long counts as sound
	load            time.Duration // how long a davd may take to load its folder
	patience        time.Duration // how long calls wait for the next davd over a folder
	full            time.Duration // how long a davd serves at least that is full, until the next one is tried
	rest            time.Duration // how long nothing changes until davd brings to the disk how far its folder is; 0: never
	watch           time.Duration // how often the files of the folder are compared with those that davd has open; 0: never
	asks            bool          // the first davd is asked for the last time of its folder
}

var defaultPauses = pauses{
	first:    100 * time.Millisecond,
	greatest: 30 * time.Second,
	long:     time.Minute,
	load:     5 * time.Minute,
	patience: 40 * time.Second, // the greatest pause, and ten seconds to load the folder
	full:     time.Minute,
	rest:     1500 * time.Millisecond, // more than a second by a clock of whole seconds
	watch:    500 * time.Millisecond,
	asks:     true,
}

// after returns the pause after a davd that ran for so long and was started after the pause last.
func (p pauses) after(ran, last time.Duration) time.Duration {
	if ran >= p.long {
		return 0
	}
	return p.longer(last)
}

// longer returns the pause that follows another one.
func (p pauses) longer(last time.Duration) time.Duration {
	switch {
	case last == 0:
		return p.first
	case last > p.greatest/2:
		return p.greatest
	}
	return 2 * last
}

// supervise reads the replies of davd, and starts it again when it ends, until the engine is closed.
func (e *Engine) supervise(p *process) {
	defer close(e.ended)
	pause := time.Duration(0)
	var answered uint64 // the last batch over the folder that was kept for sure
	for p != nil {
		began := time.Now()
		go e.watch(p)
		go e.watchHang(p)
		err := e.read(p)
		answered = latestKept(answered, p)
		if !e.isClosing() {
			p.kill()
		}
		e.setReaped(p)
		end := p.wait()
		lost := e.detach(p, end)
		if e.isClosing() {
			e.reportEnd(end)
			return
		}
		e.report(p, err, end, lost)
		pause = e.config.pauses.after(time.Since(began), pause)
		p = e.restart(&pause, answered)
	}
}

// setReaped says that the number of a process may soon be that of another one.
func (e *Engine) setReaped(p *process) {
	e.mu.Lock()
	p.isReaped = true
	e.mu.Unlock()
}

// latestKept returns the number of the last batch that was kept in the folder for sure, if it was this one before davd
// was started.
func latestKept(before uint64, p *process) uint64 {
	latest := before
	for _, number := range []uint64{p.kept, p.made} {
		if number > latest {
			latest = number
		}
	}
	return latest
}

// read finishes the calls of each batch, until davd ends or writes what it may not.
func (e *Engine) read(p *process) error {
	for {
		if _, err := p.reader.Peek(1); err != nil {
			return err
		}
		select {
		case p.reading = <-p.sent:
		default:
			return errors.New("davd wrote replies that nobody waits for")
		}
		if err := p.read(p.reading); err != nil {
			return err
		}
		if p.reading.answered > 0 {
			e.stats.served(p.reading)
		}
		p.reading = nil
		e.answered(p)
	}
}

// detach takes a davd that has ended out of service. The calls that only read or set access rules are queued once more,
// the others fail. Over a folder, those that were sent wait for the next davd. It returns what was lost.
func (e *Engine) detach(p *process, end error) []string {
	e.mu.Lock()
	defer e.mu.Unlock()
	e.process, e.spares, p.lost = nil, nil, lossOf(end)
	close(p.gone)
	isKept := e.config.Folder != ""
	var lost []string
	var again, unknown []*call
	for _, c := range append(p.unanswered(), e.waiting...) {
		switch {
		case c.sentTo == nil && c.only == nil: // It was not sent yet.
			again = append(again, c)
		case isKept && c.sentTo != nil && c.lasts:
			unknown = append(unknown, c)
		case c.repeats() && !e.closing:
			c.again, c.sentTo = true, nil
			again = append(again, c)
		default:
			lost = append(lost, c.what)
			c.finish(nil, p.lost)
		}
	}
	e.waiting = again
	if isKept {
		e.beginOutage(unknown)
	}
	return lost
}

// unanswered returns the calls that were sent to a davd that has ended, without those that it answered.
func (p *process) unanswered() []*call {
	var calls []*call
	if p.reading != nil {
		calls = append(calls, p.reading.calls[p.reading.answered:]...)
	}
	for {
		select {
		case b := <-p.sent:
			calls = append(calls, b.calls...)
		default:
			return calls
		}
	}
}

// report logs how davd ended and what was lost.
func (e *Engine) report(p *process, err, end error, lost []string) {
	if p.renewed && end == nil {
		e.config.Log.Print("davd is started again. Its folder has less, and it may need less memory.")
		return
	}
	how := howEnded(end)
	if err != nil && !errors.Is(err, io.EOF) {
		how += ", " + err.Error()
	}
	held := "All files, locks and uploads"
	if e.config.Folder != "" {
		held = "The uploads"
	}
	e.config.Log.Printf("davd ended (%s). %s that it held in memory are lost.", how, held)
	e.reportCalls("davd had not answered %d frames that change something: %q", lost)
}

// reportEnd logs why a davd that was to end has another exit status than 0.
func (e *Engine) reportEnd(end error) {
	if reason := reasonOf(end); reason != nil {
		e.config.Log.Printf("davd ended (%s).", howEnded(end))
	}
}

// reportCalls logs how many calls there are, and what they are, if there are any.
func (e *Engine) reportCalls(format string, calls []string) {
	if len(calls) > 0 {
		e.config.Log.Printf(format, len(calls), strings.Join(calls, ", "))
	}
}

// restart starts davd after the pause, and again after longer pauses as long as that fails. It returns nil if the
// engine is closed. Over a folder the batch with the number answered was kept.
func (e *Engine) restart(pause *time.Duration, answered uint64) *process {
	for {
		if !e.sleep(*pause) {
			return nil
		}
		p, err := e.openNext(answered)
		switch {
		case err == nil:
			return e.attach(p)
		case e.isClosing():
			return nil
		}
		e.config.Log.Print(err)
		*pause = e.config.pauses.longer(*pause)
	}
}

// openNext starts the next davd. Over a folder it counts as loading meanwhile. The access rules do not change until it is
// in service: only the reply of a davd changes them, and there is none.
func (e *Engine) openNext(answered uint64) (*process, error) {
	if e.config.Folder == "" {
		return open(e.config, 0, e.nextRights(), e.closed, e.clock)
	}
	e.setLoading(true)
	defer e.setLoading(false)
	if err := hasDatabase(e.config.Folder); err != nil {
		return nil, fmt.Errorf("davd cannot serve the folder %s: %w", e.config.Folder, err)
	}
	return open(e.config, answered, e.nextRights(), e.closed, e.clock)
}

// hasDatabase checks that a folder that was served has its database. Otherwise davd would make a new store there.
func hasDatabase(folder string) error {
	_, err := os.Stat(filepath.Join(folder, "meta.db"))
	return err
}

func (e *Engine) setLoading(loading bool) {
	e.mu.Lock()
	e.loading = loading
	e.mu.Unlock()
}

// nextRights returns the text of the access rules that the next davd gets, or nil if there are none.
func (e *Engine) nextRights() *string {
	e.mu.Lock()
	defer e.mu.Unlock()
	return e.rights
}

// sleep waits, and reports whether the engine is still open. Calls wait too if the pause is short, and fail otherwise.
func (e *Engine) sleep(pause time.Duration) bool {
	if pause > e.config.pauses.first {
		e.mu.Lock()
		e.pausing = true
		e.failWaiting(ErrDown)
		e.mu.Unlock()
	}
	return e.sleepOpen(pause)
}

// sleepOpen waits, and reports whether the engine is still open.
func (e *Engine) sleepOpen(pause time.Duration) bool {
	timer := time.NewTimer(pause)
	defer timer.Stop()
	select {
	case <-timer.C:
		return !e.isClosing()
	case <-e.closed:
		return false
	}
}

// attach puts a new davd into service, or ends it if the engine was closed meanwhile.
func (e *Engine) attach(p *process) *process {
	e.mu.Lock()
	if e.closing {
		e.mu.Unlock()
		p.kill()
		p.wait()
		return nil
	}
	e.process, e.pausing = p, false
	e.started++
	kept, undone := e.settle(p.kept)
	if p.isFull {
		e.failAdditions()
	}
	if b := e.next(); b != nil {
		go e.write(b)
	}
	e.mu.Unlock()
	e.reportCalls("davd has kept %d frames that it had not answered: %q", kept)
	e.reportCalls("davd has not done %d frames that it had not answered: %q", undone)
	return p
}

func (e *Engine) isClosing() bool {
	e.mu.Lock()
	defer e.mu.Unlock()
	return e.closing
}
