package davd

import (
	"context"
	"crypto/rand"
	"encoding/hex"
	"fmt"

	"davserve/internal/frame"
)

// An Operator reads what davd has, whatever the access rules say. Its methods may be called at the same time.
//
// davd has no frame for that. So a frame of an operator is sent in a batch of its own, between two that set access rules:
// the first ones allow the operator to list and read everything, and nobody anything else, and then those that hold are set
// again. Nothing else is sent until davd has answered. If it does not have its rules again then, it is killed, and the next
// davd gets them before anything else. So no frame of a client is ever served by the rules of an operator. Without access
// rules the frame is sent like any other one.
type Operator struct {
	engine    *Engine
	principal string
	rules     string
}

// NewOperator returns an operator of an engine. Its name is one that no user can have guessed.
func (e *Engine) NewOperator() (*Operator, error) {
	var random [16]byte
	if _, err := rand.Read(random[:]); err != nil {
		return nil, fmt.Errorf("the name of an operator: %w", err)
	}
	name := "operator/" + hex.EncodeToString(random[:])
	rules := "[[rule]]\nuser = \"" + name + "\"\nat_and_below = \"/\"\nallow = [\"list\", \"read\"]\n"
	return &Operator{engine: e, principal: name, rules: rules}, nil
}

// Read sends a read, and returns the reply to it. The principal of the read is set. A read that failed is a *StatusError.
// One that davd has not answered before it ended may be ErrLost.
func (o *Operator) Read(ctx context.Context, read frame.Read) (frame.Reply, error) {
	read.Principal = &o.principal
	b, err := o.send(ctx, read)
	if err != nil {
		return nil, err
	}
	return decode(b)
}

// Each sends a request that changes nothing, such as a PROPFIND, and passes each element in the body of the response to a
// function. The body of the response that it returns has none of them. The principal of the request is set.
func (o *Operator) Each(ctx context.Context, r *frame.Request, visit func(*frame.Element)) (frame.Response, error) {
	r.Principal = &o.principal
	b, err := o.send(ctx, r)
	if err != nil {
		return frame.Response{}, err
	}
	reply, err := frame.DecodeEach(b, visit)
	if err != nil {
		return frame.Response{}, fmt.Errorf("a reply of davd: %w", err)
	}
	switch reply := reply.(type) {
	case frame.Response:
		return reply, nil
	case frame.Failed:
		return frame.Response{}, &StatusError{Status: reply.Status}
	}
	return frame.Response{}, fmt.Errorf("davd answered a request with a reply %T", reply)
}

// IsBusy reports whether davd has something to do, or has something waiting for it.
func (o *Operator) IsBusy() bool {
	o.engine.mu.Lock()
	defer o.engine.mu.Unlock()
	p := o.engine.process
	return len(o.engine.waiting) > 0 || p != nil && p.pending > 0
}

// send sends a frame that changes nothing, and returns the reply.
func (o *Operator) send(ctx context.Context, f frame.Frame) ([]byte, error) {
	c := newCall(f)
	c.operates = o.rules
	replies, err := o.engine.exchange(ctx, c)
	if err == nil {
		err = c.spoiled
	}
	if err != nil {
		return nil, err
	}
	return replies[0], nil
}

// mustWait reports whether the first call that waits can be sent only later. A call of an operator changes access rules, and
// one that frees may get the reserve. So it is sent when davd has answered everything, and nothing is sent until it is
// answered. What is held in place of the reserve is sent before everything else. It is called with e.mu held.
func (e *Engine) mustWait(getsReserve bool) bool {
	p := e.process
	changes := e.waiting[0].operates != "" && (e.rights != nil || p.isSetting)
	return p.isGuarded || (changes || getsReserve) && p.pending > 0 || p.isHolding && !e.waiting[0].holds
}

// guard puts the call of an operator between two that set access rules, if there are some. davd is killed unless the second
// one is done. It is called with e.mu held.
func (e *Engine) guard(b *batch) {
	c := b.calls[0]
	if c.operates == "" || e.rights == nil {
		return
	}
	first, last := newGuard(c.operates), newGuard(*e.rights)
	first.replied = func(reply []byte) { c.spoiled = failureOf(reply) }
	last.replied = func(reply []byte) {
		if err := failureOf(reply); err != nil {
			e.breakOff(b.process, err)
		}
	}
	b.process.isGuarded = true
	c.again = true // Who asked sends it again.
	b.calls = []*call{first, c, last}
}

// newGuard returns a call that sets access rules in a batch of an operator. All that such a batch does is to read.
func newGuard(rules string) *call {
	c := newCall(frame.SetRights{Rules: rules})
	c.reads, c.lasts, c.sets, c.again = true, true, false, true
	return c
}

// breakOff kills a davd that does not have its access rules. Nothing more is sent to it.
func (e *Engine) breakOff(p *process, err error) {
	e.mu.Lock()
	p.isBroken = true
	e.mu.Unlock()
	e.config.Log.Printf("davd does not serve by its access rules any more, and is killed: %v", err)
	p.kill()
}
