package scrub

import (
	"errors"
	"fmt"
	"net/http"
	"time"

	"davserve/internal/davd"
	"davserve/internal/frame"
)

const (
	// leastCost is how many bytes each frame counts as at least.
	leastCost = 16 << 10
	// leastPause is how long a pause is at least. Shorter ones are added up.
	leastPause = time.Millisecond
	// yieldStep is how long is waited for others at once, and yieldMost how long before one frame.
	yieldStep = time.Millisecond
	yieldMost = 50 * time.Millisecond
)

// file reads a file, again if it changes meanwhile.
func (r *run) file(path string) error {
	for i := 0; i < attempts; i++ {
		length, err := r.once(path)
		switch {
		case err == nil:
			r.Progress.Files.Add(1)
			r.Progress.Bytes.Add(length)
			return nil
		case !errors.Is(err, errChanged):
			return err
		}
	}
	return &pathError{kind: Changed}
}

// once reads one version of a file, and returns its length.
func (r *run) once(path string) (int64, error) {
	read := frame.Read{Path: path, Count: piece}
	first, err := r.part(read)
	if err != nil {
		return 0, err
	}
	read.ETag = first.ETag
	for read.Offset = uint64(len(first.Bytes)); read.Offset < first.Length; {
		part, err := r.part(read)
		switch {
		case err != nil:
			return 0, err
		case part.Length != first.Length:
			return 0, errChanged
		case len(part.Bytes) == 0:
			return 0, unread(fmt.Errorf("it ends after %d of %d bytes", read.Offset, first.Length))
		}
		read.Offset += uint64(len(part.Bytes))
	}
	return int64(first.Length), nil
}

// part reads a part of a file when others do not use the store, and then pauses.
func (r *run) part(read frame.Read) (part frame.Part, err error) {
	err = r.patiently(read.Path, func() error {
		if err := r.yield(); err != nil {
			return err
		}
		began := time.Now()
		reply, err := r.Store.Read(r.ctx, read)
		if err != nil {
			return err
		}
		switch reply := reply.(type) {
		case frame.Part:
			part = reply
			r.Progress.Read.Add(int64(len(part.Bytes)))
			return r.pace(len(part.Bytes), time.Since(began))
		case frame.Collection:
			return errGone
		}
		return fmt.Errorf("davd answered a read with a reply %T", reply)
	})
	return part, ofRead(err)
}

// ofRead returns what an error of a read is, which may have the status of the frame.
func ofRead(err error) error {
	var failed *davd.StatusError
	if !errors.As(err, &failed) {
		return err
	}
	switch failed.Status {
	case http.StatusNotFound:
		return errGone
	case http.StatusPreconditionFailed:
		return errChanged
	case http.StatusInternalServerError:
		return &pathError{kind: Damaged}
	}
	return unread(fmt.Errorf("status %d", failed.Status))
}

// yield waits for a moment at which others do not use the store, but not for long.
func (r *run) yield() error {
	for waited := time.Duration(0); waited < yieldMost && r.Store.IsBusy(); waited += yieldStep {
		if err := r.sleep(yieldStep); err != nil {
			return err
		}
	}
	return r.ctx.Err()
}

// pace pauses after a frame with so many bytes that took so long: until the rate is kept, and at least as long as it took.
func (r *run) pace(bytes int, took time.Duration) error {
	r.Tick()
	if bytes < leastCost {
		bytes = leastCost
	}
	pause := took
	if r.Rate > 0 {
		least := time.Duration(float64(bytes) / float64(r.Rate) * float64(time.Second))
		if least-took > pause {
			pause = least - took
		}
	}
	if r.debt += pause; r.debt < leastPause {
		return r.ctx.Err()
	}
	began := time.Now()
	err := r.sleep(r.debt)
	r.debt -= time.Since(began)
	if r.debt < -leastPause {
		r.debt = -leastPause // Others had the processors. That is not made up for.
	}
	return err
}

// sleep waits, or returns the error of the context when that is done.
func (r *run) sleep(pause time.Duration) error {
	timer := time.NewTimer(pause)
	defer timer.Stop()
	select {
	case <-timer.C:
		return nil
	case <-r.ctx.Done():
		return r.ctx.Err()
	}
}
