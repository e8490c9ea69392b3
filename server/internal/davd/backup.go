package davd

import (
	"context"
	"errors"
	"fmt"

	"davserve/internal/frame"
)

// A Backup is a time in which davd overwrites nothing of what files contained when it began. One goroutine at a time
// may use it.
type Backup struct {
	engine  *Engine
	process *process // the davd that knows of it; nil: none
}

// StartBackup begins a backup, and then calls between once while davd rests: it has answered each batch that it was
// sent, and is sent none. So nobody writes to its folder meanwhile, and requests wait.
//
// The caller must end the backup. After an error there is none. The error is ErrInBackup if another one is under way.
func (e *Engine) StartBackup(ctx context.Context, between func() error) (*Backup, error) {
	if !e.claimBackup() {
		return nil, ErrInBackup
	}
	c := newCall(frame.BeginBackup{})
	reply, err := e.do(ctx, c)
	if _, ok := reply.(frame.Done); err == nil && !ok {
		err = fmt.Errorf("davd began a backup with a reply %T", reply)
	}
	b, hasBegun := &Backup{engine: e, process: c.sentTo}, false
	defer func() {
		if !hasBegun { // between may also have panicked.
			b.End()
		}
	}()
	if err == nil {
		err = b.rest(ctx, between)
	}
	if err != nil {
		return nil, err
	}
	hasBegun = true
	return b, nil
}

// Check returns an error if the backup is of no more use, because its davd has ended or the engine is closed.
func (b *Backup) Check() error {
	b.engine.mu.Lock()
	defer b.engine.mu.Unlock()
	switch {
	case b.engine.closing:
		return ErrClosed
	case b.process != b.engine.process:
		return b.lost()
	}
	return nil
}

// End ends the backup. Only if it returns nil, davd has overwritten nothing until now. When memory ran out, the frame
// is sent again until davd has answered or has ended.
func (b *Backup) End() error {
	defer b.engine.freeBackup()
	if b.process == nil {
		return nil // It was not sent.
	}
	for pause := dropPause; ; pause = b.engine.config.pauses.longer(pause) {
		c := newCall(frame.EndBackup{})
		c.only = b.process
		var failed *StatusError
		switch _, err := b.engine.do(context.Background(), c); {
		case err == nil:
			return nil
		case !errors.As(err, &failed):
			return b.orLost(err)
		case !b.engine.sleepOpen(pause):
			return ErrClosed
		}
	}
}

// rest calls between while davd has no batch.
func (b *Backup) rest(ctx context.Context, between func() error) error {
	idle := b.engine.pause(b.process)
	defer b.engine.resume()
	select {
	case <-idle:
	case <-b.process.gone:
	case <-b.engine.closed:
	case <-ctx.Done():
		return ctx.Err()
	}
	if err := b.Check(); err != nil {
		return err
	}
	if err := between(); err != nil {
		return b.orLost(err)
	}
	return b.Check() // A davd that ends writes to its folder.
}

// orLost returns an error, or that of a davd that has ended, which is the reason then.
func (b *Backup) orLost(err error) error {
	select {
	case <-b.process.gone:
		return b.lost()
	default:
		return err
	}
}

// lost returns the error of a backup whose davd has ended.
func (b *Backup) lost() error {
	if errors.Is(b.process.lost, ErrFull) {
		return fmt.Errorf("davd ended during the backup: %w", ErrFull)
	}
	return errors.New("davd ended during the backup")
}

// pause has nothing sent to davd until resume. The channel is closed when davd has answered what it was sent before.
func (e *Engine) pause(p *process) <-chan struct{} {
	e.mu.Lock()
	defer e.mu.Unlock()
	e.paused = true
	idle := make(chan struct{})
	if p.pending == 0 {
		close(idle)
		return idle
	}
	e.idle = idle
	return idle
}

// resume ends a pause, and writes what waits.
func (e *Engine) resume() {
	e.mu.Lock()
	e.paused, e.idle = false, nil
	b := e.next()
	e.mu.Unlock()
	if b != nil {
		go e.write(b)
	}
}

// claimBackup reports whether the caller may make a backup now. It must call freeBackup then.
func (e *Engine) claimBackup() bool {
	e.mu.Lock()
	defer e.mu.Unlock()
	isFree := !e.backup
	e.backup = true
	return isFree
}

// freeBackup allows the next backup.
func (e *Engine) freeBackup() {
	e.mu.Lock()
	e.backup = false
	e.mu.Unlock()
}
