package frame

import (
	"bytes"
	"errors"
	"io"
	"strings"
	"testing"
	"testing/iotest"
)

func TestContent(t *testing.T) {
	for _, test := range []struct {
		frames   [][]byte
		expected string
	}{
		{nil, "\x00\x00\x00\x00\x00\x00\x00\x00"},
		{[][]byte{{6}}, "\x00\x00\x00\x00\x00\x00\x00\x01\x00\x00\x00\x00\x00\x00\x00\x01\x06"},
		{
			[][]byte{{}, []byte("ab")},
			"\x00\x00\x00\x00\x00\x00\x00\x02\x00\x00\x00\x00\x00\x00\x00\x00\x00\x00\x00\x00\x00\x00\x00\x02ab",
		},
	} {
		if got := string(AppendContent([]byte("-"), test.frames)); got != "-"+test.expected {
			t.Errorf("%q: %q, expected %q", test.frames, got, test.expected)
		}
		if got := ContentLen(test.frames); got != uint64(len(test.expected)) {
			t.Errorf("%q: %d bytes, expected %d", test.frames, got, len(test.expected))
		}
	}
}

func TestReadReplyHeader(t *testing.T) {
	const header = "\x00\x00\x00\x00\x00\x00\x01\x02\x00\x00\x00\x00\x00\x00\x01\x99\x80\x00\x00\x00\x00\x00\x00\x03"
	expected := ReplyHeader{Number: 258, Status: 409, Count: 1<<63 + 3}
	got, err := ReadReplyHeader(iotest.OneByteReader(strings.NewReader(header)))
	if err != nil || got != expected {
		t.Errorf("%+v, %v, expected %+v", got, err, expected)
	}
	for n := range header {
		atEnd := io.ErrUnexpectedEOF
		if n == 0 {
			atEnd = io.EOF
		}
		if got, err := ReadReplyHeader(strings.NewReader(header[:n])); err != atEnd || got != (ReplyHeader{}) {
			t.Errorf("%d bytes: %+v, %v, expected %v", n, got, err, atEnd)
		}
	}
}

func TestReadReplyHeaderStatus(t *testing.T) {
	for _, status := range []uint64{0, 99, 1000, 1<<32 + 200, greatest} {
		b := appendNumber(appendNumber(appendNumber(nil, 1), status), 0)
		if got, err := ReadReplyHeader(bytes.NewReader(b)); !errors.Is(err, ErrMalformed) || got != (ReplyHeader{}) {
			t.Errorf("status %d: %+v, %v, expected ErrMalformed", status, got, err)
		}
	}
}

func TestReadReply(t *testing.T) {
	for _, n := range []int{0, 1, 100, firstStep - 1, firstStep, firstStep + 1, 2 * firstStep, 5*firstStep + 7} {
		expected := bytes.Repeat([]byte("0123456"), n/7+1)[:n]
		b := append(appendBytes(nil, expected), "rest"...)
		r := bytes.NewReader(b)
		got, err := ReadReply(iotest.HalfReader(r), uint64(n), nil)
		if err != nil || !bytes.Equal(got, expected) || r.Len() != len("rest") {
			t.Errorf("%d bytes: read %d, %v, and %d are left", n, len(got), err, r.Len())
		}
		for _, cut := range []int{0, 7, 8, 8 + n/2, 8 + n - 1} {
			if cut >= 8+n {
				continue
			}
			if got, err := ReadReply(bytes.NewReader(b[:cut]), uint64(n), nil); got != nil || err != io.ErrUnexpectedEOF {
				t.Errorf("%d of %d bytes: %d read, %v, expected io.ErrUnexpectedEOF", cut, n+8, len(got), err)
			}
		}
	}
}

func TestReadReplyLimit(t *testing.T) {
	for _, test := range []struct{ stated, limit uint64 }{{1, 0}, {101, 100}, {greatest, 100}, {greatest, greatest}} {
		b := append(appendNumber(nil, test.stated), make([]byte, 200)...)
		r := bytes.NewReader(b)
		got, err := ReadReply(r, test.limit, nil)
		if got != nil || !errors.Is(err, ErrTooLong) || r.Len() != 200 {
			t.Errorf("%d bytes, at most %d: %d read, %v, expected ErrTooLong", test.stated, test.limit, len(got), err)
		}
	}
}

// A reply that does not fit is dropped as it comes, whatever length it states, and the next one can be read.
func TestReadReplyThatDoesNotFit(t *testing.T) {
	for _, n := range []int{0, 1, firstStep, 50 * firstStep} {
		b := appendBytes(appendBytes(nil, make([]byte, n)), []byte("next"))
		r := bytes.NewReader(b)
		asked := -1
		var err error
		got := allocated(func() {
			_, err = ReadReply(r, uint64(n), func(bytes int) bool { asked = bytes; return false })
		})
		if err != ErrDropped || asked != n || got > firstStep/2 {
			t.Errorf("%d bytes: asked for %d, %d allocated, %v", n, asked, got, err)
		}
		next, err := ReadReply(r, 4, func(bytes int) bool { return bytes == 4 })
		if err != nil || string(next) != "next" {
			t.Errorf("%d bytes: the next one is %q, %v", n, next, err)
		}
	}
	b := appendBytes(nil, make([]byte, 100))
	if _, err := ReadReply(bytes.NewReader(b[:60]), 100, func(int) bool { return false }); err != io.ErrUnexpectedEOF {
		t.Errorf("one that is cut: %v", err)
	}
}

func TestReadReplyMemory(t *testing.T) {
	for _, arrive := range []int{0, 10, 1 << 20, 4 << 20} {
		b := append(appendNumber(nil, 1<<50), make([]byte, arrive)...)
		var err error
		got := allocated(func() { _, err = ReadReply(bytes.NewReader(b), 1<<60, nil) })
		// Each buffer is twice as long as the one before it.
		if limit := uint64(2*firstStep + 4*arrive); err != io.ErrUnexpectedEOF || got > limit {
			t.Errorf("%d bytes arrive: %d allocated, at most %d, %v", arrive, got, limit, err)
		}
	}
}

func TestReadReplyError(t *testing.T) {
	failure := errors.New("pipe failed")
	for _, b := range []string{"", "\x00\x00", "\x00\x00\x00\x00\x00\x00\x00\x05ab"} {
		r := io.MultiReader(strings.NewReader(b), iotest.ErrReader(failure))
		if _, err := ReadReply(r, 100, nil); !errors.Is(err, failure) {
			t.Errorf("%q: %v, expected %v", b, err, failure)
		}
		r = io.MultiReader(strings.NewReader(b), iotest.ErrReader(failure))
		if _, err := ReadReplyHeader(r); !errors.Is(err, failure) {
			t.Errorf("%q: %v, expected %v", b, err, failure)
		}
	}
}
