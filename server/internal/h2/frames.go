package h2

import (
	"encoding/binary"
	"fmt"
	"sync"
	"time"

	"golang.org/x/net/http2"
)

const (
	headerSize = 9 // of a frame
	codeSize   = 4 // of the code in a RST_STREAM
)

// frames follows the frames in one direction of a connection, which arrive in pieces of any length. One goroutine at a
// time may use it.
type frames struct {
	resets   *bucket
	controls *bucket // nil: they are not counted
	isOurs   bool    // the server sends them
	maxBlock int     // bytes of the frames of one header

	skip    int // bytes until the next header or code
	have    [headerSize]byte
	got     int
	isReset bool // the code of a RST_STREAM is read

	block         int // bytes of the header that has begun
	continuations int // its frames after the first
}

// see looks at the next bytes.
func (f *frames) see(p []byte) error {
	for len(p) > 0 {
		if f.skip > 0 {
			n := least(f.skip, len(p))
			f.skip -= n
			p = p[n:]
			continue
		}
		want := headerSize
		if f.isReset {
			want = codeSize
		}
		n := copy(f.have[f.got:want], p)
		f.got += n
		p = p[n:]
		if f.got < want {
			return nil
		}
		f.got = 0
		if err := f.judge(); err != nil {
			return err
		}
	}
	return nil
}

func least(one, other int) int {
	if one < other {
		return one
	}
	return other
}

// judge judges the header of a frame, or the code of a RST_STREAM.
func (f *frames) judge() error {
	if f.isReset {
		f.isReset = false
		return f.reset(http2.ErrCode(binary.BigEndian.Uint32(f.have[:])))
	}
	length := int(f.have[0])<<16 | int(f.have[1])<<8 | int(f.have[2])
	kind, flags := http2.FrameType(f.have[3]), http2.Flags(f.have[4])
	f.skip = length
	if kind == http2.FrameRSTStream && length == codeSize {
		f.skip, f.isReset = 0, true
		return nil
	}
	if f.isOurs {
		return nil
	}
	return f.count(kind, flags, length)
}

// reset counts the reset of a stream. With NO_ERROR the server ends one whose response is whole, but not the request.
func (f *frames) reset(code http2.ErrCode) error {
	if f.isOurs && code == http2.ErrCodeNo {
		return nil
	}
	if !f.resets.take() {
		return fmt.Errorf("%w requests were reset", errTooMuch)
	}
	return nil
}

// count counts a frame of the client.
func (f *frames) count(kind http2.FrameType, flags http2.Flags, length int) error {
	switch kind {
	case http2.FrameHeaders:
		f.block, f.continuations = length, 0
	case http2.FrameContinuation:
		f.block += length
		f.continuations++
		if f.continuations > maxContinuations || f.block > f.maxBlock {
			return fmt.Errorf("%w frames of one header", errTooMuch)
		}
	case http2.FrameWindowUpdate: // as many as the client receives frames
	case http2.FrameData:
		if length > 0 || flags.Has(http2.FlagDataEndStream) {
			return nil
		}
		fallthrough
	default:
		if !f.controls.take() {
			return fmt.Errorf("%w frames that carry nothing", errTooMuch)
		}
	}
	return nil
}

// A bucket has some tokens, and gets more with time.
type bucket struct {
	most, aSecond float64
	now           func() time.Time

	mu   sync.Mutex
	left float64
	last time.Time
}

func newBucket(most, aSecond float64, now func() time.Time) *bucket {
	return &bucket{most: most, aSecond: aSecond, now: now, left: most, last: now()}
}

// take takes a token, and reports whether there was one.
func (b *bucket) take() bool {
	b.mu.Lock()
	defer b.mu.Unlock()
	now := b.now()
	b.left += now.Sub(b.last).Seconds() * b.aSecond
	b.last = now
	if b.left > b.most {
		b.left = b.most
	}
	if b.left < 1 {
		return false
	}
	b.left--
	return true
}
