package frame

import (
	"bytes"
	"errors"
	"reflect"
	"runtime"
	"strconv"
	"strings"
	"testing"
)

// appendReply appends the encoding of a reply, as davd does.
func appendReply(b []byte, reply Reply) []byte {
	switch r := reply.(type) {
	case Response:
		b = appendNumber(append(b, replyResponse), uint64(r.Status))
		b = appendFields(appendFlag(b, r.Close), r.Fields)
		if r.Root == nil {
			return append(b, no)
		}
		return appendElement(append(b, yes), r.Root)
	case BodyStarted:
		return appendNumber(append(b, replyBodyStarted), r.Number)
	case Done:
		return append(b, replyDone)
	case Part:
		b = appendNumber(append(b, replyPart), r.Length)
		b = appendOptional(appendOptionalNumber(b, r.Modified), r.ETag)
		return appendBytes(appendString(b, r.MediaType), r.Bytes)
	case Collection:
		return append(b, replyCollection)
	case Expiry:
		return appendOptionalNumber(append(b, replyExpiry), r.Time)
	case Holdings:
		b = appendNumber(append(b, replyHoldings), r.Locks)
		if r.Quota == nil {
			return append(b, no)
		}
		return appendOptionalNumber(appendNumber(append(b, yes), r.Quota.Used), r.Quota.Total)
	case Failed:
		return appendNumber(append(b, replyFailed), uint64(r.Status))
	case Refused:
		return appendString(append(b, replyRefused), r.Reason)
	case Explained:
		b = appendOptionalNumber(append(b, replyExplained), r.Rule)
		return appendFlag(appendFlag(appendFlag(b, r.List), r.Read), r.Write)
	case Locks:
		b = appendNumber(append(b, replyLocks), uint64(len(r)))
		for _, lock := range r {
			b = appendOptional(appendString(appendString(b, lock.Token), lock.Path), lock.Principal)
			b = appendOptionalNumber(appendFlag(appendFlag(b, lock.Deep), lock.Shared), lock.Expires)
		}
	}
	return b
}

func appendFlag(b []byte, flag bool) []byte {
	if flag {
		return append(b, yes)
	}
	return append(b, no)
}

func appendOptionalNumber(b []byte, n *uint64) []byte {
	if n == nil {
		return append(b, no)
	}
	return appendNumber(append(b, yes), *n)
}

// allocated returns how many bytes f allocates.
func allocated(f func()) uint64 {
	var before, after runtime.MemStats
	runtime.ReadMemStats(&before)
	f()
	runtime.ReadMemStats(&after)
	return after.TotalAlloc - before.TotalAlloc
}

func nested(levels int) *Element {
	e := &Element{Name: "x"}
	for i := 1; i < levels; i++ {
		e = &Element{Name: "x", Nodes: []Node{{Element: e}}}
	}
	return e
}

func TestDecodeLevels(t *testing.T) {
	for _, test := range []struct {
		levels int
		ok     bool
	}{{1, true}, {2, true}, {256, true}, {272, true}, {273, false}, {100000, false}} {
		expected := Response{Status: 207, Root: nested(test.levels)}
		got, err := Decode(appendReply(nil, expected))
		switch {
		case test.ok && (err != nil || !reflect.DeepEqual(got, expected)):
			t.Errorf("%d levels: %v, expected the element", test.levels, err)
		case !test.ok && (!errors.Is(err, ErrMalformed) || !strings.Contains(err.Error(), "at most 272 levels")):
			t.Errorf("%d levels: %v, expected ErrMalformed", test.levels, err)
		}
	}
}

// Siblings do not count as levels, and what is built in blocks does not run together.
func TestDecodeManySiblings(t *testing.T) {
	for _, n := range []int{0, 1, 63, 64, 65, 255, 256, 257, 700} {
		root := &Element{Name: "root"}
		for i := 0; i < n; i++ {
			e := &Element{Name: strconv.Itoa(i)}
			for j := 0; j < i%70; j++ {
				e.Nodes = append(e.Nodes, Node{Text: strconv.Itoa(j)}, Node{Element: &Element{Name: "leaf"}})
			}
			root.Nodes = append(root.Nodes, Node{Element: e})
		}
		expected := Response{Status: 207, Root: root}
		got, err := Decode(appendReply(nil, expected))
		if err != nil || !reflect.DeepEqual(got, expected) {
			t.Errorf("%d siblings: %v, expected the element", n, err)
		}
	}
}

// A caller may append to the nodes of an element.
func TestDecodeNodesHaveNoSpareCapacity(t *testing.T) {
	expected := Response{Status: 207, Root: vectorTree}
	got, err := Decode(appendReply(nil, expected))
	if err != nil {
		t.Fatal(err)
	}
	root := got.(Response).Root
	response := root.Nodes[1].Element
	_ = append(response.Nodes, Node{Text: "other"})
	if !reflect.DeepEqual(got, expected) {
		t.Errorf("an append changed other nodes: %#v", root)
	}
}

func TestDecodeStatus(t *testing.T) {
	for _, test := range []struct {
		status uint64
		ok     bool
	}{
		{0, false}, {99, false}, {100, true}, {999, true}, {1000, false}, {65535, false}, {65536 + 200, false},
		{1<<32 + 200, false}, {1<<63 + 200, false}, {greatest, false},
	} {
		failed := appendNumber([]byte{replyFailed}, test.status)
		response := append(appendNumber(appendFlag(appendNumber([]byte{replyResponse}, test.status), false), 0), no)
		for _, b := range [][]byte{failed, response} {
			_, err := Decode(b)
			if ok := err == nil; ok != test.ok || !ok && !errors.Is(err, ErrMalformed) {
				t.Errorf("status %d: %v", test.status, err)
			}
		}
	}
}

func TestDecodePartAliasesItsInput(t *testing.T) {
	b := appendReply(nil, Part{MediaType: "text/plain", ETag: pointer("1"), Bytes: []byte("hi")})
	reply, err := Decode(b)
	if err != nil {
		t.Fatal(err)
	}
	part := reply.(Part)
	if &part.Bytes[1] != &b[len(b)-1] {
		t.Error("the bytes of a part are a copy")
	}
	for i := range b {
		b[i] = 'x'
	}
	if part.MediaType != "text/plain" || *part.ETag != "1" {
		t.Errorf("strings of a part changed: %q, %q", part.MediaType, *part.ETag)
	}
}

func TestDecodeResponseCopiesItsInput(t *testing.T) {
	expected := Response{Status: 207, Fields: vectorFields, Root: vectorTree}
	b := appendReply(nil, expected)
	got, err := Decode(b)
	if err != nil {
		t.Fatal(err)
	}
	for i := range b {
		b[i] = 'x'
	}
	if !reflect.DeepEqual(got, expected) {
		t.Errorf("a response changed: %#v", got)
	}
}

// memoryFactor is how many bytes Decode may allocate for each byte of its input. The worst input is one of empty
// strings: 9 bytes are a node of 24, in a slice that grows and is copied at the end.
const memoryFactor = 24

func TestDecodeMemory(t *testing.T) {
	const n = 1 << 14
	var leaves, parents []Node
	for i := 0; i < n; i++ {
		leaves = append(leaves, Node{Element: &Element{}})
		parents = append(parents, Node{Element: &Element{Nodes: leaves[:1]}})
	}
	for name, reply := range map[string]Reply{
		"strings":          Response{Status: 207, Root: &Element{Nodes: make([]Node, n)}},
		"elements":         Response{Status: 207, Root: &Element{Nodes: leaves}},
		"parents":          Response{Status: 207, Root: &Element{Nodes: parents}},
		"fields":           Response{Status: 207, Fields: make([]Field, n)},
		"equal attributes": Response{Status: 207, Root: &Element{Attributes: make([]Attribute, n)}},
		"locks":            make(Locks, n),
	} {
		b := appendReply(nil, reply)
		for _, b := range [][]byte{b, b[:len(b)-1]} {
			var err error
			got := allocated(func() { _, err = Decode(b) })
			if limit := memoryFactor * uint64(len(b)); got > limit {
				t.Errorf("%s: %d bytes allocated for %d, %v", name, got, len(b), err)
			}
		}
	}
}

// Without -fuzzminimizetime 10x or so, most of the time goes into smaller inputs with the same coverage.
func FuzzDecode(f *testing.F) {
	for _, file := range []string{"replies.txt", "malformed.txt"} {
		for _, b := range readVectors(f, file) {
			f.Add(b)
		}
	}
	f.Fuzz(func(t *testing.T, b []byte) {
		var reply Reply
		var err error
		if got := allocated(func() { reply, err = Decode(b) }); got > memoryFactor*uint64(len(b))+1<<16 {
			t.Fatalf("%d bytes allocated for %d", got, len(b))
		}
		if err != nil {
			if reply != nil || !errors.Is(err, ErrMalformed) {
				t.Fatalf("%#v, %v", reply, err)
			}
			return
		}
		checkEncoding(t, reply, b)
	})
}

// checkEncoding checks that b is the encoding of a reply. If b is longer, it has empty prefixes or namespaces instead
// of absent ones, each of which needs 8 bytes.
func checkEncoding(t *testing.T, reply Reply, b []byte) {
	t.Helper()
	encoded := appendReply(nil, reply)
	if len(encoded) == len(b) {
		if !bytes.Equal(encoded, b) {
			t.Fatalf("%#v is encoded as %x, not as %x", reply, encoded, b)
		}
		return
	}
	again, err := Decode(encoded)
	if err != nil || !reflect.DeepEqual(again, reply) || len(encoded) > len(b) || (len(b)-len(encoded))%8 != 0 {
		t.Fatalf("%#v is encoded as %x, not as %x: %#v, %v", reply, encoded, b, again, err)
	}
}
