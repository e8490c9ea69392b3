package davd

import (
	"context"
	"fmt"

	"davserve/internal/frame"
)

// davd needs memory to free memory: a DELETE lists what it removes. So while little is left, a call that only frees is sent
// alone, and the limit of davd is higher until it is answered. Then the limit is lowered again, so that no other call gets
// what is left of this reserve.
//
// davd gives hardly any memory back to the system. What it has used of the reserve stays its own, and later calls can fill it.
// So while more than half of the reserve is in use, nothing is added unless something is kept free in its place:
//   - A davd in memory is sent a body to hold. The next call that frees has it dropped before. If there is no room for it,
//     davd is full until enough was freed.
//   - A davd over a folder, where bodies are on the disk, is full. It is started again when something was removed.

const (
	// heldBytes is how long the body is that davd holds in place of the reserve. A DELETE of 1,000 members needs half of it.
	heldBytes = 256 << 10
	// heldPiece is how many bytes of it are sent at once.
	heldPiece = 16 << 10
)

// A budget is what memory a davd may have, and has by now.
type budget struct {
	allowed    allowance // over a folder zero until that is loaded, and also later if davd is full then
	hasBodies  bool      // bodies are in memory, so that they can be held in place of the reserve
	hasReserve bool      // davd has the reserve, until the batch that is under way is answered
	isHolding  bool      // it is sent a body to hold, and nothing else
	held       *uint64   // the number of the body that is held; nil: none
	dropping   *call     // drops it in the batch that is under way; nil: nothing does
	isReaped   bool      // the number of davd may be that of another process
}

// A shortage finds out whether davd has little memory left, once that is needed.
type shortage struct {
	process *process
	isKnown bool
	is      bool
}

// isFor reports whether a call has to get the reserve: it only frees, and little memory is left. It is called with e.mu
// held.
func (s *shortage) isFor(c *call) bool {
	p := s.process
	if !c.frees && !c.drops || p.allowed == (allowance{}) || p.isReaped {
		return false
	}
	if !s.isKnown {
		has, err := p.addressSpace()
		s.isKnown, s.is = true, err == nil && p.allowed.isShort(has)
	}
	return s.is
}

// giveReserve gives davd the reserve for a batch, and what it holds in place of it. Nothing else may be under way. It is called with
// e.mu held.
func (p *process) giveReserve(b *batch) {
	if p.setLimit(p.allowed.most()) == nil { // Otherwise davd has what it had before.
		p.hasReserve, p.isGuarded = true, true
	}
	if p.held != nil {
		p.dropping = p.holding(frame.DropBody{Number: *p.held})
		b.calls = append([]*call{p.dropping}, b.calls...)
	}
}

// takeBack lowers the limit of davd again, if it has the reserve. It reports whether more than half of the reserve stays in
// use. It is called with e.mu held, when a batch is answered.
func (p *process) takeBack() (isUsed bool, err error) {
	if !p.hasReserve {
		return false, nil
	}
	p.hasReserve = false
	if p.dropping != nil && p.dropping.err == nil && expectDone(p.dropping.replies[0]) == nil {
		p.held = nil // Otherwise it is dropped once more.
	}
	p.dropping = nil
	if err := p.setLimit(p.allowed.common); err != nil {
		return false, err
	}
	has, err := p.addressSpace()
	if err != nil || !p.allowed.isFull(has) {
		p.isFull = false
		return false, nil // davd has ended, or uses little of the reserve.
	}
	p.isHolding = p.hasBodies
	return true, nil
}

// refuses reports whether a call is not sent, because it would add to what davd holds, and davd is full. While it is found out
// whether davd still is, the call waits. It is called with e.mu held.
func (p *process) refuses(c *call) bool {
	return (c.adds || c.grows && p.hasBodies) && !p.isHolding && p.hasNoRoom()
}

// hasNoRoom reports whether nothing may be added to what davd holds. It is called with e.mu held.
func (p *process) hasNoRoom() bool {
	if p.isFull && !p.hasBodies && p.allowed != (allowance{}) && !p.isReaped {
		has, err := p.addressSpace()
		p.isFull = err != nil || p.allowed.isFull(has)
	}
	return p.isFull
}

// keepReserve sees to it that nobody fills what davd uses of the reserve. A davd whose limit could not be lowered is killed.
func (e *Engine) keepReserve(p *process, isUsed bool, err error) {
	switch {
	case err != nil:
		e.config.Log.Printf("the memory of davd cannot be limited any more, and it is killed: %v", err)
		p.kill()
	case isUsed && p.hasBodies:
		go e.hold(p)
	case isUsed:
		e.setFull(p, true)
	}
}

// setFull says whether davd is full, and logs it if it was not before.
func (e *Engine) setFull(p *process, isFull bool) {
	e.mu.Lock()
	isNews := isFull && !p.isFull
	p.isFull = isFull
	e.mu.Unlock()
	if isNews {
		e.config.Log.Printf("davd uses more than half of the %s KiB of -memory that are for what frees memory. "+
			"Until enough was removed, requests that add something fail with 507.", kibibytes(p.allowed.reserve))
	}
}

// hold has davd hold a body in place of the reserve. If there is no room for it, davd is full.
func (e *Engine) hold(p *process) {
	var err error
	if p.held == nil { // Otherwise it could not be dropped before.
		err = e.holdBody(p)
	}
	e.setFull(p, err != nil)
	e.mu.Lock()
	p.isHolding = false
	if p.isFull && p == e.process {
		e.failAdditions()
	}
	b := e.next()
	e.mu.Unlock()
	if b != nil {
		e.write(b)
	}
}

// holdBody has davd hold a body, or drop it if there is no room for all of it.
func (e *Engine) holdBody(p *process) error {
	reply, err := e.ask(p, frame.StartBody{})
	started, ok := reply.(frame.BodyStarted)
	if err == nil && !ok {
		err = fmt.Errorf("davd began a body with a reply %T", reply)
	}
	if err != nil {
		return err
	}
	piece := make([]byte, heldPiece)
	for n := 0; n < heldBytes && err == nil; n += heldPiece {
		_, err = e.ask(p, frame.AddToBody{Number: started.Number, Bytes: piece})
	}
	if err != nil {
		if _, failed := e.ask(p, frame.DropBody{Number: started.Number}); failed == nil {
			return err
		}
	}
	p.held = &started.Number
	return err
}

// ask has davd answer a frame about the body that it holds, before all others.
func (e *Engine) ask(p *process, f frame.Frame) (frame.Reply, error) {
	return e.do(context.Background(), p.holding(f))
}

// holding returns a call about the body that is held. It is sent before all others.
func (p *process) holding(f frame.Frame) *call {
	return &call{frames: [][]byte{frame.Append(nil, f)}, only: p, holds: true, done: make(chan struct{}, 1), what: "reserve"}
}
