package davd

import (
	"errors"
	"fmt"
	"io"
	"io/fs"
	"os"
	"path/filepath"
	"sort"
	"syscall"
	"time"

	"davserve/internal/clock"
	"davserve/internal/frame"
)

// errStopped says that nobody waits for the start any more.
var errStopped = errors.New("it was stopped")

// open starts davd. Over a folder it waits until davd has named the last batch that it kept, and then limits its memory.
// It gives davd the access rules, if there are some. It gives up when stop is closed. A folder whose last batch is before
// the one that was answered is not served. The first davd has the clock go on from the last time of the folder.
func open(config Config, answered uint64, rights *string, stop <-chan struct{}, times *clock.Clock) (*process, error) {
	if err := expectPlainFiles(config.Folder); err != nil {
		return nil, fmt.Errorf("davd cannot serve the folder %s: %w", config.Folder, err)
	}
	p, err := start(config)
	if err != nil || config.Folder == "" && rights == nil {
		return p, err
	}
	err = p.await(stop, config.pauses.load, func() error { return p.greet(config, rights, times) })
	if err == nil && p.kept < answered {
		err = fmt.Errorf("it has lost changes that were answered: its last batch is %d, and %d was answered", p.kept, answered)
	} else if err == nil && config.Folder != "" {
		err = p.limitMemory(config)
	}
	if err == nil {
		p.files = identify(config.Folder)
		return p, nil
	}
	p.kill()
	if end := p.wait(); !isReply(err) && !isFar(err) {
		err = whyNot(err, end)
	}
	if config.Folder == "" {
		return nil, fmt.Errorf("davd cannot serve: %w", err)
	}
	return nil, fmt.Errorf("davd cannot serve the folder %s: %w", config.Folder, err)
}

// fileNames are the names of the files in a folder.
var fileNames = []string{"meta.db", "meta.db-wal", "data", "data-wal", "last", "last-wal"}

// hasNoNumber reports whether a folder has neither of the files with the number of the last change.
func hasNoNumber(folder string) bool {
	for _, name := range []string{"last", "last-wal"} {
		if _, err := os.Lstat(filepath.Join(folder, name)); !errors.Is(err, fs.ErrNotExist) {
			return false
		}
	}
	return true
}

// hasOthers reports whether a folder has something that davd did not make.
func hasOthers(folder string) bool {
	entries, err := os.ReadDir(folder)
	if err != nil {
		return false // It is not there.
	}
	own := map[string]bool{"control": true, "lost+found": true}
	for _, name := range fileNames {
		own[name] = true
	}
	for _, entry := range entries {
		if !own[entry.Name()] {
			return true
		}
	}
	return false
}

// expectPlainFiles checks that no file of a folder is a link or has a second name. davd would find the file that belongs to
// it elsewhere than a backup does. Without a folder there are none.
func expectPlainFiles(folder string) error {
	if folder == "" {
		return nil
	}
	for _, name := range fileNames {
		found, err := os.Lstat(filepath.Join(folder, name))
		if err != nil {
			continue // It is not there, or davd says why it cannot be opened.
		}
		stat, ok := found.Sys().(*syscall.Stat_t)
		if !found.Mode().IsRegular() || ok && stat.Nlink > 1 {
			return fmt.Errorf("%s is a link, or a file with a second name: put a copy in its place (%w)", name, ErrNoStore)
		}
	}
	return nil
}

// greet is what is done before davd is in service: it names the last batch that it kept in its folder, and gets the access
// rules. Its memory is not limited yet over a folder, so that the rules find room beside what fills it.
func (p *process) greet(config Config, rights *string, times *clock.Clock) error {
	if config.Folder != "" {
		if err := p.ask(times.Now()); err != nil {
			return err
		}
	}
	if config.Folder != "" && config.isFirst && config.pauses.asks {
		if err := p.compare(config, times); err != nil {
			return err
		}
	}
	if rights == nil {
		return nil
	}
	return p.setRights(*rights, times.Now())
}

// await waits for what is done with davd. If that takes longer than the limit, or if stop is closed before, davd is
// killed.
func (p *process) await(stop <-chan struct{}, limit time.Duration, do func() error) error {
	answered := make(chan error, 1)
	go func() { answered <- do() }()
	timer := time.NewTimer(limit)
	defer timer.Stop()
	var err error
	select {
	case err := <-answered:
		return err
	case <-timer.C:
		err = fmt.Errorf("it has not answered within %v", limit)
	case <-stop:
		err = errStopped
	}
	p.kill()
	p.input.Close()
	<-answered // The output has ended.
	return err
}

// ask sends a batch with the number 0, which is never the next one. The number in the answer is that of the last batch.
func (p *process) ask(now uint64) error {
	var head [frame.HeaderLen]byte
	p.writer.Write(frame.AppendBatchHeader(head[:0], frame.BatchHeader{Number: 0, Time: now}))
	if err := p.writer.Flush(); err != nil {
		return err
	}
	header, err := frame.ReadReplyHeader(p.reader)
	if err == io.EOF {
		return errors.New("it has not answered")
	}
	if err != nil {
		return err
	}
	if header.Status != statusNotNext || header.Count != 0 {
		return fmt.Errorf("batch 0 has the status %d and %d replies", header.Status, header.Count)
	}
	p.kept, p.number, p.loaded = header.Number, header.Number, time.Now()
	return nil
}

// An outage is the time from the end of a davd over a folder until the next is in service.
type outage struct {
	calls []*call     // those that were sent and not answered
	timer *time.Timer // ends their wait
}

// beginOutage keeps calls until the next davd shows which of them were done. It is called with e.mu held.
func (e *Engine) beginOutage(calls []*call) {
	o := &outage{calls: calls}
	o.timer = time.AfterFunc(e.config.pauses.patience, func() { e.giveUp(o) })
	e.outage = o
	if e.closing {
		e.failOutage()
	}
}

// giveUp fails all calls that wait for the next davd, if it is not in service yet.
func (e *Engine) giveUp(o *outage) {
	e.mu.Lock()
	if e.outage != o {
		e.mu.Unlock()
		return
	}
	unknown := e.failOutage()
	e.pausing = true
	e.failWaiting(ErrDown)
	e.mu.Unlock()
	e.reportCalls("davd is not back, and nobody knows whether it has done %d frames: %q", unknown)
}

// failOutage fails the calls that were sent before an outage. Of those that change something nobody knows whether they were
// done. It returns what these are. It is called with e.mu held.
func (e *Engine) failOutage() (unknown []string) {
	for _, c := range e.endOutage() {
		if c.reads {
			c.finish(nil, ErrLost)
			continue
		}
		unknown = append(unknown, c.what)
		c.finish(nil, ErrUnknown)
	}
	return unknown
}

// endOutage ends an outage, if there is one. It returns the calls that were sent before it. It is called with e.mu held.
func (e *Engine) endOutage() []*call {
	o := e.outage
	if o == nil {
		return nil
	}
	e.outage = nil
	o.timer.Stop()
	return o.calls
}

// settle finishes the calls that the last davd had not answered, by the number of the last batch that the next one has
// kept. Those that only read are queued once more, each in its old place. It is called with e.mu held.
func (e *Engine) settle(last uint64) (kept, undone []string) {
	var again []*call
	for _, c := range e.endOutage() {
		switch {
		case c.repeats():
			c.again, c.sentTo = true, nil
			again = append(again, c)
		case c.reads:
			c.finish(nil, ErrLost)
		case c.number <= last:
			kept = append(kept, c.what)
			c.finish(nil, ErrKept)
		default:
			undone = append(undone, c.what)
			c.finish(nil, c.sentTo.lost)
		}
	}
	e.waiting = append(again, e.waiting...)
	sort.SliceStable(e.waiting, func(i, j int) bool { return e.waiting[i].place < e.waiting[j].place })
	return kept, undone
}
