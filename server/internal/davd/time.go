package davd

import (
	"errors"
	"net/http"

	"davserve/internal/clock"
	"davserve/internal/frame"
)

const (
	// timeToken is that of a lock by which davd shows the time of its folder. No request of a client has this token.
	timeToken = "urn:davserve:time"
	// exclusiveTime is how many seconds an exclusive lock lasts at most.
	exclusiveTime = 600
)

// newClock returns the clock of an engine.
func (c Config) newClock() *clock.Clock {
	change := c.MaxClockChange
	if change == 0 {
		change = clock.MaxChange
	}
	if c.Machine == nil {
		return clock.New(change)
	}
	return clock.Of(c.Machine, change)
}

// tellTime logs that the clock of the machine has jumped.
func (e *Engine) tellTime() {
	if news := e.clock.News(); news != "" {
		e.config.Log.Print(news)
	}
}

// compare has a clock go on from the last time of a folder, and logs if the two are far apart. If that is more than is
// followed, the folder is not served: davd would keep a wrong time for ever, or has one.
func (p *process) compare(config Config, times *clock.Clock) error {
	last, err := p.lastTime()
	if err != nil || last == 0 {
		return err
	}
	line, err := times.Begin(last)
	if line != "" {
		config.Log.Print(line)
	}
	return err
}

// isFar reports whether an error is that of a clock too far away from the last time of a folder.
func isFar(err error) bool {
	var far *clock.FarError
	return errors.As(err, &far)
}

// lastTime returns the time of the last batch that changed something in the folder of a davd that is not in service yet, or
// an earlier one, in seconds since 1970. 0: it is not known, or there was none.
//
// No frame asks for the time. So a batch makes a lock of one second, asks when the next lock expires, and removes the lock.
// Its time is 0, and davd goes on from the last one. It changes nothing, so davd keeps nothing of it, and it is sent before
// the access rules, which could refuse it. An exclusive lock of the root may refuse it, and lasts ten minutes at most.
func (p *process) lastTime() (uint64, error) {
	scope := &frame.Element{Name: "lockscope", Prefix: "D", Namespace: "DAV:", Nodes: []frame.Node{{
		Element: &frame.Element{Name: "shared", Prefix: "D", Namespace: "DAV:"},
	}}}
	kind := &frame.Element{Name: "locktype", Prefix: "D", Namespace: "DAV:", Nodes: []frame.Node{{
		Element: &frame.Element{Name: "write", Prefix: "D", Namespace: "DAV:"},
	}}}
	c := newCall(&frame.Request{
		Method: "LOCK", Path: "*", Token: timeToken,
		Fields: []frame.Field{{Name: "depth", Value: "0"}, {Name: "timeout", Value: "Second-1"}},
		Body: &frame.Element{
			Name: "lockinfo", Prefix: "D", Namespace: "DAV:", Nodes: []frame.Node{{Element: scope}, {Element: kind}},
			Attributes: []frame.Attribute{{Name: "xmlns:D", Value: "DAV:"}},
		},
	})
	c.frames = append(c.frames, frame.Append(nil, frame.NextExpiry{}), frame.Append(nil, &frame.Request{
		Method: "UNLOCK", Path: "*", Token: timeToken,
		Fields: []frame.Field{{Name: "lock-token", Value: "<" + timeToken + ">"}},
	}))
	if err := p.serveAlone(c, 0); err != nil || c.err != nil {
		return 0, err // A davd without memory for the batch has done nothing.
	}
	reply, err := decode(c.replies[1])
	expiry, ok := reply.(frame.Expiry)
	if err != nil || !ok || expiry.Time == nil {
		return 0, nil
	}
	least := uint64(exclusiveTime)
	if frame.StatusOf(c.replies[0]) == http.StatusOK {
		least = 1
	}
	if *expiry.Time < least {
		return 0, nil
	}
	return *expiry.Time - least, nil
}
