package frame

import (
	"encoding/binary"
	"errors"
	"fmt"
	"io"
	"math"
)

// HeaderLen is how many bytes the header of a batch has, of frames and of replies.
const HeaderLen = 24

// ErrTooLong says that a reply has more bytes than its reader accepts.
var ErrTooLong = errors.New("reply too long")

// ErrDropped says that a reply was read and dropped, because it does not fit.
var ErrDropped = errors.New("reply dropped")

// A BatchHeader is the header of a batch of frames. The content follows.
type BatchHeader struct {
	Number uint64
	Time   uint64 // seconds since 1970
	Length uint64 // of the content, in bytes
}

// AppendBatchHeader appends the encoding of a header to b and returns the result.
func AppendBatchHeader(b []byte, h BatchHeader) []byte {
	b = appendNumber(b, h.Number)
	b = appendNumber(b, h.Time)
	return appendNumber(b, h.Length)
}

// ContentLen returns how many bytes the content of a batch of these encoded frames has.
func ContentLen(frames [][]byte) uint64 {
	n := uint64(8)
	for _, f := range frames {
		n += 8 + uint64(len(f))
	}
	return n
}

// AppendContent appends the content of a batch of these encoded frames to b and returns the result.
func AppendContent(b []byte, frames [][]byte) []byte {
	b = appendNumber(b, uint64(len(frames)))
	for _, f := range frames {
		b = appendBytes(b, f)
	}
	return b
}

// A ReplyHeader is the header of a batch of replies. Count replies follow.
type ReplyHeader struct {
	Number uint64 // of the batch of frames; if the status is 409, of the last batch that davd counted
	Status int    // of the batch as a whole: 100 to 999
	Count  uint64
}

// ReadReplyHeader reads the header of a batch of replies. At the end of r the error is io.EOF, and inside the header it
// is io.ErrUnexpectedEOF. If the status is not one of HTTP, the error wraps ErrMalformed.
func ReadReplyHeader(r io.Reader) (ReplyHeader, error) {
	var b [HeaderLen]byte
	if _, err := io.ReadFull(r, b[:]); err != nil {
		return ReplyHeader{}, err
	}
	status := binary.BigEndian.Uint64(b[8:])
	if !isStatus(status) {
		return ReplyHeader{}, fmt.Errorf("%w: header of a batch: expected an HTTP status, not %d", ErrMalformed, status)
	}
	return ReplyHeader{
		Number: binary.BigEndian.Uint64(b[:]),
		Status: int(status),
		Count:  binary.BigEndian.Uint64(b[16:]),
	}, nil
}

// ReadReply reads one encoded reply of a batch, of at most limit bytes. If it has more, the error wraps ErrTooLong, and
// nothing after its length is read: so r is of no more use. If r ends before the reply does, the error is
// io.ErrUnexpectedEOF.
//
// The function fits is called with the length of the reply before it is read; nil: it always fits. One that does not is
// read and dropped, and the error is ErrDropped.
//
// For a long reply ReadReply allocates memory as its bytes arrive, whatever length it states.
func ReadReply(r io.Reader, limit uint64, fits func(bytes int) bool) ([]byte, error) {
	var b [8]byte
	if _, err := io.ReadFull(r, b[:]); err != nil {
		return nil, unexpected(err)
	}
	n := binary.BigEndian.Uint64(b[:])
	if n > limit || n > math.MaxInt {
		return nil, fmt.Errorf("%w: %d bytes, at most %d", ErrTooLong, n, limit)
	}
	if fits != nil && !fits(int(n)) {
		if _, err := io.CopyN(io.Discard, r, int64(n)); err != nil {
			return nil, unexpected(err)
		}
		return nil, ErrDropped
	}
	return readGrowing(r, int(n))
}

// firstStep is how many bytes are allocated before any arrive. A part of 1 MiB fits, with what precedes its bytes.
const firstStep = 1<<20 + 1<<12

// readGrowing reads n bytes. A buffer of more than firstStep is at most twice as long as what has arrived.
func readGrowing(r io.Reader, n int) ([]byte, error) {
	b := make([]byte, least(n, firstStep))
	for read := 0; ; {
		if _, err := io.ReadFull(r, b[read:]); err != nil {
			return nil, unexpected(err)
		}
		if len(b) == n {
			return b, nil
		}
		read = len(b)
		grown := make([]byte, read+least(n-read, read))
		copy(grown, b)
		b = grown
	}
}

// unexpected returns io.ErrUnexpectedEOF for io.EOF, and any other error as it is.
func unexpected(err error) error {
	if err == io.EOF {
		return io.ErrUnexpectedEOF
	}
	return err
}
