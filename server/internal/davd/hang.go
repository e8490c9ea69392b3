package davd

import (
	"strings"
	"time"
)

// DefaultHangTimeout is how long davd may stand still with a batch, unless a Config says otherwise.
const DefaultHangTimeout = 2 * time.Minute

// hangLooks is how often davserve looks at davd within a HangTimeout. Looks count, and not the time, so that a suspended
// machine does not make davd seem to hang.
const hangLooks = 12

// A sight is what is seen of a davd at a time. The zero sight is one at which nothing was seen.
type sight struct {
	answered uint64 // how many batches it has answered
	threads
}

// threads are what the system says of the threads of a process.
type threads struct {
	states   string // the states in which they are, as ps(1) names them: one of each
	switches uint64 // how often one of them has left a processor
}

// isStill reports whether no thread runs, waits for a processor, or waits for a disk. All of them are asleep or stopped.
func (t threads) isStill() bool {
	return t.states != "" && strings.Trim(t.states, "STt") == ""
}

// A standstill counts for how many looks davd has stood still. It has not run in between: to be asleep or stopped again,
// it would have left a processor once more.
type standstill struct {
	last  sight
	count int
}

// add adds what is seen at one more look, and reports whether davd hangs by now.
func (s *standstill) add(next sight) bool {
	if next == s.last && next.isStill() {
		s.count++
	} else {
		s.count = 0
	}
	s.last = next
	return s.count >= hangLooks
}

// watchHang kills a davd that stands still although it has something to do: somebody has stopped it, or it waits for what
// never comes. All requests would wait for it. A davd that works, or waits for its disk, has all the time that it needs. It
// returns when davd has ended.
func (e *Engine) watchHang(p *process) {
	ticker := time.NewTicker(e.config.HangTimeout/hangLooks + 1) // more than 0
	defer ticker.Stop()
	var seen standstill
	for !seen.add(e.lookAt(p)) {
		select {
		case <-p.gone:
			return
		case <-ticker.C:
		}
	}
	e.config.Log.Printf("davd has something to do, and has not run for %v. It is in state %s of ps(1), and is killed",
		e.config.HangTimeout, seen.last.states)
	p.kill()
}

// lookAt looks at a davd that has something to do: a batch, or to end. Of any other one nothing is seen.
func (e *Engine) lookAt(p *process) sight {
	e.mu.Lock()
	isBusy := p.pending > 0 || p.renewed || e.closing
	answered := p.number - uint64(p.pending)
	e.mu.Unlock()
	if !isBusy {
		return sight{}
	}
	found, err := threadsOf(p.command.Process.Pid)
	if err != nil {
		return sight{}
	}
	return sight{answered, found}
}
