package davd

import (
	"net/http"
	"strings"
	"sync"
	"time"

	"davserve/internal/frame"
)

const (
	batchFrames = 256     // how many frames a batch has at most
	batchBytes  = 4 << 20 // a batch of more than one frame has no more bytes
)

// A call is a frame that was or will be sent, or several that follow each other in one batch, and what came back.
type call struct {
	frames  [][]byte
	only    *process // the davd that may get it; nil: any
	sentTo  *process // the davd that got it last
	number  uint64   // of the batch in which that davd got it
	reads   bool     // it changes nothing, so that it may be sent again
	lasts   bool     // davd may keep what it does in its folder; otherwise it ends with the davd that gets it
	adds    bool     // davd may hold more after it
	frees   bool     // davd may hold less after it
	drops   bool     // it drops a body, and does nothing else
	grows   bool     // it adds to a body
	holds   bool     // it is about the body that is held in place of the reserve
	sets    bool     // it sets the access rules
	made    []int    // the statuses of its response that say that it has changed what davd keeps
	place   uint64   // its place among all calls that were queued
	again   bool     // it was sent before, or is not to be sent again
	replies [][]byte // one to each frame
	err     error
	done    chan struct{} // gets one value when replies or err is set
	what    string        // for the log

	operates string // the access rules of the operator whose call it is; empty: it is none of an operator
	spoiled  error  // why it was not served by these rules; set before replies

	replied func(reply []byte) // called before who waits gets the reply; nil: nothing
	fitting Fitting
}

func newCall(f frame.Frame) *call {
	return &call{
		frames: [][]byte{frame.Append(nil, f)},
		reads:  reads(f),
		lasts:  lasts(f),
		adds:   adds(f),
		frees:  frees(f),
		drops:  drops(f),
		sets:   sets(f),
		made:   madeBy(f),
		done:   make(chan struct{}, 1),
		what:   describe(f),
	}
}

// finish sets what came back, and wakes who waits for it.
func (c *call) finish(replies [][]byte, err error) {
	c.replies, c.err = replies, err
	c.over()
	c.done <- struct{}{}
}

// over says that there will be no other reply.
func (c *call) over() {
	if c.fitting.Over != nil {
		c.fitting.Over()
	}
}

// size returns how many bytes its frames have.
func (c *call) size() int {
	size := 0
	for _, f := range c.frames {
		size += len(f)
	}
	return size
}

// repeats reports whether the call may be sent to the next davd, when the one that it was sent to has ended.
func (c *call) repeats() bool {
	return (c.reads || c.sets) && !c.again
}

// reads reports whether a frame changes nothing.
func reads(f frame.Frame) bool {
	switch f := f.(type) {
	case frame.Read, frame.NextExpiry, frame.Held, frame.Explain, frame.ListLocks:
		return true
	case *frame.Request:
		return f.Method == "PROPFIND" || f.Method == "OPTIONS"
	}
	return false
}

// lasts reports whether davd may keep what a frame does in its folder. It holds bodies, the begin of a backup and the
// access rules in memory only.
func lasts(f frame.Frame) bool {
	switch f.(type) {
	case frame.StartBody, frame.AddToBody, frame.DropBody, frame.BeginBackup, frame.EndBackup, frame.SetRights:
		return false
	}
	return true
}

// sets reports whether a frame sets the access rules.
func sets(f frame.Frame) bool {
	_, ok := f.(frame.SetRights)
	return ok
}

// madeBy returns the statuses that say for sure that a frame has changed what davd keeps. Other responses of success may
// come for what changes nothing, such as a COPY of an empty collection onto another one, or a DELETE of an empty root.
func madeBy(f frame.Frame) []int {
	request, ok := f.(*frame.Request)
	if !ok {
		return nil
	}
	switch request.Method {
	case "PUT":
		if hasField(request, "content-range") {
			return []int{http.StatusCreated} // It may be of no bytes.
		}
		return []int{http.StatusCreated, http.StatusNoContent}
	case "MOVE":
		return []int{http.StatusCreated, http.StatusNoContent}
	case "MKCOL", "COPY":
		return []int{http.StatusCreated}
	}
	return nil
}

// hasField reports whether a request has a header field.
func hasField(request *frame.Request, name string) bool {
	for _, field := range request.Fields {
		if strings.EqualFold(field.Name, name) {
			return true
		}
	}
	return false
}

// hasMade reports whether a call has changed what davd keeps, by the replies to it.
func (c *call) hasMade(replies [][]byte) bool {
	for _, reply := range replies {
		status := frame.StatusOf(reply)
		for _, made := range c.made {
			if status == made {
				return true
			}
		}
	}
	return false
}

// adds reports whether davd may hold more after a frame. Without a body a LOCK refreshes one.
func adds(f frame.Frame) bool {
	switch f := f.(type) {
	case frame.StartBody:
		return true
	case *frame.Request:
		if f.Method == "LOCK" {
			return f.Body != nil
		}
		return !reads(f) && !frees(f)
	}
	return false
}

// frees reports whether davd may hold less after a frame.
func frees(f frame.Frame) bool {
	switch f := f.(type) {
	case frame.RemoveLock:
		return true
	case *frame.Request:
		return f.Method == "DELETE" || f.Method == "UNLOCK"
	}
	return false
}

// drops reports whether a frame drops a body, which is in memory only.
func drops(f frame.Frame) bool {
	_, ok := f.(frame.DropBody)
	return ok
}

// describe names a frame in the log.
func describe(f frame.Frame) string {
	switch f := f.(type) {
	case *frame.Request:
		return f.Method + " " + f.Path
	case frame.Read:
		return "read " + f.Path
	case frame.StartBody, frame.AddToBody, frame.DropBody:
		return "upload"
	case frame.BeginBackup, frame.EndBackup:
		return "backup"
	case frame.SetRights:
		return "access rules"
	case frame.RemoveLock:
		return "removal of a lock of " + f.Path
	case frame.SetModified:
		return "time of " + f.Path
	}
	return "query"
}

// A batch is what is written to davd at once.
type batch struct {
	process  *process
	number   uint64
	now      uint64
	calls    []*call
	written  sync.WaitGroup // until the batch is written
	wrote    time.Time      // when it was written
	answered int            // how many calls are finished; only who reads the replies uses it
	took     time.Duration  // how long davd had it until its replies came, if it was served
}

// frames returns how many frames the batch has.
func (b *batch) frames() int {
	count := 0
	for _, c := range b.calls {
		count += len(c.frames)
	}
	return count
}

// changes reports whether a frame of the batch may change what davd keeps in its folder.
func (b *batch) changes() bool {
	for _, c := range b.calls {
		if c.lasts && !c.reads {
			return true
		}
	}
	return false
}

// isAlone reports whether the call has a batch of its own.
func (c *call) isAlone() bool {
	return c.sets || c.operates != "" || c.holds
}

// cut splits the calls of the next batch from the others. The batch has at least one call. One that sets access rules is
// alone in its batch, and so is one of an operator, and one that gets the reserve.
func cut(calls []*call, getsReserve func(*call) bool) (batch, rest []*call) {
	isAlone := func(c *call) bool { return c.isAlone() || getsReserve(c) }
	size, frames := 0, 0
	for i, c := range calls {
		size += c.size()
		frames += len(c.frames)
		if i > 0 && (size > batchBytes || frames > batchFrames || isAlone(c) || isAlone(calls[0])) {
			return calls[:i:i], calls[i:]
		}
	}
	return calls, nil
}
