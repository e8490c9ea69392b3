package davd

import (
	"time"

	"davserve/internal/frame"
)

// awaitRest has davd note how far its folder is, once nothing has changed for a while. With each batch that changes
// something davd writes the number of that batch to a file beside its database, and does not wait for the disk. The first
// batch that changes nothing a second later makes it wait. So a folder that lost its last batches is not served unnoticed,
// if it rested in between. It is called with e.mu held, when a batch was answered.
func (e *Engine) awaitRest(p *process) {
	if e.config.Folder == "" || e.config.pauses.rest == 0 || !p.changed || p.pending > 0 || e.closing {
		return
	}
	if p.resting == nil {
		p.resting = time.AfterFunc(e.config.pauses.rest, func() { e.note(p) })
		return
	}
	p.resting.Reset(e.config.pauses.rest)
}

// note sends davd a frame that changes nothing, unless it has something else to do. Nobody waits for the reply.
func (e *Engine) note(p *process) {
	e.mu.Lock()
	isResting := p == e.process && p.changed && p.pending == 0 && !e.closing
	if isResting {
		p.changed = false
	}
	e.mu.Unlock()
	if isResting {
		e.submit(newCall(frame.Held{}))
	}
}
