package davd

import (
	"context"
	"errors"
	"fmt"
	"time"

	"davserve/internal/frame"
)

const (
	// dropPause is the time until a body is dropped again after memory ran out.
	dropPause = 10 * time.Millisecond
	// spareBodies is how many bodies without bytes davd holds at most for the uploads to come.
	spareBodies = 64
)

// A Body is the body of a request. davd holds it while it arrives in pieces. One goroutine at a time may use it.
type Body struct {
	engine  *Engine
	process *process // the davd that holds it
	number  uint64
	buffer  []byte // of the last piece, which was answered
	dropped bool   // davd has answered that it does not hold it any more
}

// StartBody begins a body without bytes. The caller must drop it.
func (e *Engine) StartBody(ctx context.Context) (*Body, error) {
	if spare := e.takeSpare(); spare != nil {
		return spare, nil
	}
	c := newCall(frame.StartBody{})
	replies, err := e.exchange(ctx, c)
	if err != nil {
		return nil, err
	}
	return e.startedBody(c.sentTo, replies[0])
}

// startedBody returns the body that a davd has begun, by the bytes of the reply.
func (e *Engine) startedBody(p *process, b []byte) (*Body, error) {
	reply, err := decode(b)
	if err != nil {
		return nil, err
	}
	started, ok := reply.(frame.BodyStarted)
	if !ok {
		return nil, fmt.Errorf("davd began a body with a reply %T", reply)
	}
	return &Body{engine: e, process: p, number: started.Number}, nil
}

// takeSpare returns a body that was begun with an earlier request, or nil: if there is none, or if davd would refuse to
// begin one now.
func (e *Engine) takeSpare() *Body {
	e.mu.Lock()
	defer e.mu.Unlock()
	last := len(e.spares) - 1
	if last < 0 || e.closing || e.process == nil || e.process.isFull {
		return nil
	}
	spare := e.spares[last]
	e.spares = e.spares[:last]
	return spare
}

// wantsSpare reports whether davd is to begin one more body for a later upload.
func (e *Engine) wantsSpare() bool {
	e.mu.Lock()
	defer e.mu.Unlock()
	return len(e.spares) < spareBodies
}

// addSpare has a body wait for a later upload. If enough wait by now, it is dropped.
func (e *Engine) addSpare(spare *Body) {
	e.mu.Lock()
	defer e.mu.Unlock()
	switch {
	case spare.process != e.process: // It has ended, and the body with it.
	case len(e.spares) < spareBodies:
		e.spares = append(e.spares, spare)
	default:
		spare.Drop()
	}
}

// Add adds a piece at the end of the body. After an error the body lacks it and must not be used any more.
func (b *Body) Add(ctx context.Context, piece []byte) error {
	b.buffer = b.piece(piece)
	c := &call{frames: [][]byte{b.buffer}, only: b.process, grows: true, done: make(chan struct{}, 1), what: "upload"}
	replies, err := b.engine.exchange(ctx, c)
	if err != nil {
		b.buffer = nil // It may still be in the queue.
		return err
	}
	return expectDone(replies[0])
}

// piece returns the frame that adds a piece, in the memory of the last one.
func (b *Body) piece(piece []byte) []byte {
	return frame.Append(b.buffer[:0], frame.AddToBody{Number: b.number, Bytes: piece})
}

// expectDone returns why a frame that changes a body failed, by the bytes of the reply.
func expectDone(b []byte) error {
	reply, err := decode(b)
	if err != nil {
		return err
	}
	if _, ok := reply.(frame.Done); !ok {
		return fmt.Errorf("davd changed a body with a reply %T", reply)
	}
	return nil
}

// Do adds the last piece to the body, unless it is empty, sends a request with the body, and drops it. davd gets all that
// in one batch and serves it in this order. If the piece fails, so does the request, and the error is that of the piece.
//
// In the same batch davd begins a body for a later upload, unless enough wait. So a small upload takes one batch.
func (b *Body) Do(ctx context.Context, last []byte, request *frame.Request) (frame.Reply, error) {
	request.Body = frame.Stored(b.number)
	c := newCall(request)
	c.only = b.process
	if len(last) > 0 {
		c.frames = append([][]byte{b.piece(last)}, c.frames...)
	}
	at := len(c.frames) // where the request ends
	c.frames = append(c.frames, frame.Append(nil, frame.DropBody{Number: b.number}))
	if b.engine.wantsSpare() {
		c.frames = append(c.frames, frame.Append(nil, frame.StartBody{}))
	}
	b.buffer = nil // It may still be in the queue after an error.
	replies, err := b.engine.exchange(ctx, c)
	if err != nil {
		return nil, err
	}
	b.dropped = expectDone(replies[at]) == nil
	for _, reply := range replies[at+1:] {
		if spare, err := b.engine.startedBody(b.process, reply); err == nil {
			b.engine.addSpare(spare)
		}
	}
	if isDone := frame.StatusOf(replies[at-1])/100 == 2; len(last) > 0 && !isDone {
		if err := expectDone(replies[0]); err != nil {
			return nil, err // The request failed for want of a body.
		}
	}
	return decode(replies[at-1])
}

// Drop removes the body from davd, unless Do has. It does not wait for that. When memory ran out, the frame or its batch
// did nothing, so it is sent again until davd has answered or has ended.
func (b *Body) Drop() {
	if b.dropped {
		return
	}
	go func() {
		for pause := dropPause; b.drop() && b.engine.sleepOpen(pause); pause = b.engine.config.pauses.longer(pause) {
		}
	}()
}

// drop sends the frame that removes the body, and reports whether it failed and may succeed later.
func (b *Body) drop() bool {
	c := newCall(frame.DropBody{Number: b.number})
	c.only = b.process
	var failed *StatusError
	_, err := b.engine.do(context.Background(), c)
	return errors.As(err, &failed)
}
