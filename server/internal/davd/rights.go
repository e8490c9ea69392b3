package davd

import (
	"context"
	"errors"
	"fmt"
	"io"

	"davserve/internal/frame"
)

// A RightsError says that a text has no access rules.
type RightsError struct {
	Reason string // as in frame.Refused
}

// Error implements error.
func (e *RightsError) Error() string {
	return "the access rules: " + e.Reason
}

// SetRights has davd serve by the access rules of a text from now on. What was queued before is served by the old
// rules, and what is queued later by the new ones. Each later davd gets them, too. While davd does not run, SetRights
// waits.
//
// If the text has no rules, the error is a *RightsError. After an error the old rules stay. Only after a *StatusError
// with 507 nobody knows which ones hold, until rules are set or davd is started again, and gets the old ones. When ctx
// is done, SetRights returns its error, but it waits for the reply to a text that was sent.
func (e *Engine) SetRights(ctx context.Context, text string) error {
	reply, err := e.do(ctx, e.newSetting(text))
	if err != nil {
		return err
	}
	return refusalOf(reply)
}

// newSetting returns a call that sets access rules. Who reads the reply keeps them for the next davd, before anything
// else is known of the one that replied. Otherwise that could end, and the next get the old rules, although they were set.
func (e *Engine) newSetting(text string) *call {
	c := newCall(frame.SetRights{Rules: text})
	c.replied = func(reply []byte) {
		if failureOf(reply) != nil {
			return
		}
		e.mu.Lock()
		defer e.mu.Unlock()
		e.rights = &text
	}
	return c
}

// Explain asks what the access rules allow a principal at a path, as in a request line. A nil principal is nobody.
func (e *Engine) Explain(ctx context.Context, principal *string, path string) (frame.Explained, error) {
	reply, err := e.Do(ctx, frame.Explain{Principal: principal, Path: path})
	if err != nil {
		return frame.Explained{}, err
	}
	explained, ok := reply.(frame.Explained)
	if !ok {
		return frame.Explained{}, fmt.Errorf("davd explained its access rules with a reply %T", reply)
	}
	return explained, nil
}

// setRights has a davd that is not in service yet serve by access rules. Nobody else may use it.
func (p *process) setRights(rules string, now uint64) error {
	c := newCall(frame.SetRights{Rules: rules})
	if err := p.serveAlone(c, now); err != nil {
		return err
	}
	err := c.err
	if err == nil {
		err = failureOf(c.replies[0])
	}
	var failed *StatusError
	if errors.As(err, &failed) {
		return fmt.Errorf("the access rules cannot be set: %w", err)
	}
	return err
}

// serveAlone has a davd that is not in service yet answer a call. Nobody else may use it. What davd has replied is in the
// call.
func (p *process) serveAlone(c *call, now uint64) error {
	p.number++
	b := &batch{process: p, number: p.number, now: now, calls: []*call{c}}
	err := p.write(b)
	if err == nil {
		err = p.read(b)
	}
	if err == io.EOF {
		return errors.New("it has not answered")
	}
	return err
}

// failureOf returns why access rules were not set, by the bytes of the reply.
func failureOf(b []byte) error {
	reply, err := decode(b)
	if err != nil {
		return err
	}
	return refusalOf(reply)
}

// refusalOf returns why access rules were not set, by the reply.
func refusalOf(reply frame.Reply) error {
	switch reply := reply.(type) {
	case frame.Done:
		return nil
	case frame.Refused:
		return &RightsError{Reason: reply.Reason}
	}
	return fmt.Errorf("davd set its access rules with a reply %T", reply)
}

// isReply reports whether an error is what davd has replied to its access rules.
func isReply(err error) bool {
	var refused *RightsError
	var failed *StatusError
	return errors.As(err, &refused) || errors.As(err, &failed)
}
