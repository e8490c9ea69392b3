package frame

import (
	"encoding/binary"
	"errors"
	"fmt"
	"unicode/utf8"
)

// ErrMalformed says that bytes of davd are not what docs/FRAMES.md allows. The errors that wrap it say where.
var ErrMalformed = errors.New("malformed reply")

// The first byte of a reply.
const (
	replyResponse = iota
	replyBodyStarted
	replyDone
	replyPart
	replyCollection
	replyExpiry
	replyHoldings
	replyFailed
	replyRefused
	replyExplained
	replyLocks
)

func (Response) isReply()    {}
func (BodyStarted) isReply() {}
func (Done) isReply()        {}
func (Part) isReply()        {}
func (Collection) isReply()  {}
func (Expiry) isReply()      {}
func (Holdings) isReply()    {}
func (Failed) isReply()      {}
func (Refused) isReply()     {}
func (Explained) isReply()   {}
func (Locks) isReply()       {}

// Decode decodes a reply, which must be the whole of b. If it cannot, the error wraps ErrMalformed.
//
// The bytes of a Part are those in b, so the caller must not change b while it uses them. All strings of a Response, and
// all of Locks, share one copy of b. The memory that Decode allocates is proportional to the length of b.
//
// Decode returns an absent prefix or namespace and an empty one alike.
func Decode(b []byte) (Reply, error) {
	r := reader{b: b}
	reply := r.reply()
	if r.err == nil && r.at != len(b) {
		r.fail(r.at, "the end")
	}
	if r.err != nil {
		return nil, r.err
	}
	return reply, nil
}

// StatusOf returns the status of a Response, and 0 for another reply. It reads no more of it.
func StatusOf(b []byte) int {
	if len(b) == 0 || b[0] != replyResponse {
		return 0
	}
	r := reader{b: b, at: 1}
	return r.status()
}

// A reader reads values from the front of a reply. After its first failure it has no more bytes, and every method
// returns a zero value.
type reader struct {
	b    []byte
	at   int    // how many bytes are read
	text string // a copy of b that strings share; empty: each string is copied
	err  error
	tree builder
}

func (r *reader) reply() Reply {
	switch r.kind(replyLocks, "a reply") {
	case replyResponse:
		return r.response()
	case replyBodyStarted:
		return BodyStarted{Number: r.number()}
	case replyDone:
		return Done{}
	case replyPart:
		return r.part()
	case replyCollection:
		return Collection{}
	case replyExpiry:
		return Expiry{Time: r.optionalNumber()}
	case replyHoldings:
		return Holdings{Locks: r.number(), Quota: r.quota()}
	case replyFailed:
		return Failed{Status: r.status()}
	case replyRefused:
		return Refused{Reason: r.string()}
	case replyExplained:
		return Explained{Rule: r.optionalNumber(), List: r.flag(), Read: r.flag(), Write: r.flag()}
	default:
		return r.locks()
	}
}

// Go evaluates the calls in a composite literal in the order in which they are written. It is that of the grammar.

func (r *reader) response() Response {
	r.text = string(r.b)
	return Response{Status: r.status(), Close: r.flag(), Fields: r.fields(), Root: r.root()}
}

func (r *reader) part() Part {
	return Part{
		Length:    r.number(),
		Modified:  r.optionalNumber(),
		ETag:      r.optionalString(),
		MediaType: r.string(),
		Bytes:     r.bytes(),
	}
}

func (r *reader) quota() *Quota {
	if !r.has() {
		return nil
	}
	return &Quota{Used: r.number(), Total: r.optionalNumber()}
}

func (r *reader) locks() Locks {
	r.text = string(r.b)
	count := r.count(lockBytes)
	if count == 0 {
		return nil
	}
	locks := make(Locks, count)
	for i := range locks {
		if r.err != nil {
			return nil
		}
		locks[i] = Lock{
			Token:     r.string(),
			Path:      r.string(),
			Principal: r.optionalString(),
			Deep:      r.flag(),
			Shared:    r.flag(),
			Expires:   r.optionalNumber(),
		}
	}
	return locks
}

func (r *reader) fields() []Field {
	count := r.count(pairBytes)
	if count == 0 {
		return nil
	}
	fields := make([]Field, count)
	for i := range fields {
		if r.err != nil {
			return nil
		}
		fields[i] = Field{Name: r.byteString(), Value: r.byteString()}
	}
	return fields
}

const (
	// pairBytes is how many bytes a pair of byte strings has at least: two numbers.
	pairBytes = 16
	// lockBytes is how many bytes a lock has at least: two numbers, no principal, two flags, and no time.
	lockBytes = 8 + 8 + 1 + 1 + 1 + 1
)

// count reads the count of a list of items that have so many bytes at least. It fails if too few bytes are left for so
// many items, so the caller may allocate the list at once.
func (r *reader) count(itemBytes int) int {
	at := r.at
	n := r.number()
	if n > uint64(r.left()/itemBytes) {
		r.fail(at, "a list, not the count %d with %d bytes left", n, r.left())
		return 0
	}
	return int(n)
}

func (r *reader) status() int {
	at := r.at
	n := r.number()
	if !isStatus(n) {
		r.fail(at, "an HTTP status, not %d", n)
		return 0
	}
	return int(n)
}

// isStatus reports whether n has three digits, as each HTTP status has.
func isStatus(n uint64) bool {
	return 100 <= n && n <= 999
}

func (r *reader) optionalNumber() *uint64 {
	if !r.has() {
		return nil
	}
	n := r.number()
	return &n
}

func (r *reader) optionalString() *string {
	if !r.has() {
		return nil
	}
	s := r.string()
	return &s
}

// emptyIfAbsent reads an optional string.
func (r *reader) emptyIfAbsent() string {
	if !r.has() {
		return ""
	}
	return r.string()
}

// has reads the first byte of an optional value and reports whether the value follows.
func (r *reader) has() bool {
	return r.kind(yes, "an optional value") == yes
}

func (r *reader) flag() bool {
	return r.kind(yes, "a flag") == yes
}

// kind reads a byte that is at most the greatest.
func (r *reader) kind(greatest byte, what string) byte {
	if r.at == len(r.b) {
		r.fail(r.at, "%s, not the end", what)
		return 0
	}
	kind := r.b[r.at]
	if kind > greatest {
		r.fail(r.at, "%s, not the byte %d", what, kind)
		return 0
	}
	r.at++
	return kind
}

// string reads a string.
func (r *reader) string() string {
	s := r.byteString()
	if !utf8.ValidString(s) {
		r.fail(r.at-len(s), "UTF-8")
		return ""
	}
	return s
}

// byteString reads a byte string as a Go string.
func (r *reader) byteString() string {
	b := r.bytes()
	if r.text == "" {
		return string(b)
	}
	return r.text[r.at-len(b) : r.at]
}

// bytes reads a byte string and returns it as a part of the reply.
func (r *reader) bytes() []byte {
	n := r.number()
	if n > uint64(r.left()) {
		r.fail(r.at, "%d bytes, and %d are left", n, r.left())
		return nil
	}
	start := r.at
	r.at += int(n)
	return r.b[start:r.at:r.at]
}

func (r *reader) number() uint64 {
	if r.left() < 8 {
		r.fail(r.at, "a number, and %d bytes are left", r.left())
		return 0
	}
	n := binary.BigEndian.Uint64(r.b[r.at:])
	r.at += 8
	return n
}

// left returns how many bytes are not read yet.
func (r *reader) left() int {
	return len(r.b) - r.at
}

// fail keeps the first failure: what is expected at which byte.
func (r *reader) fail(at int, expected string, args ...any) {
	if r.err == nil {
		r.err = fmt.Errorf("%w: byte %d: expected %s", ErrMalformed, at, fmt.Sprintf(expected, args...))
		r.b = r.b[:r.at]
	}
}
