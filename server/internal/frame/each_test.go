package frame

import (
	"errors"
	"reflect"
	"strconv"
	"testing"
)

// multistatus returns a response with so many elements in its root, and texts between them.
func multistatus(n int) Response {
	root := &Element{Name: "multistatus", Prefix: "D", Namespace: "DAV:", Attributes: []Attribute{{Name: "xmlns:D", Value: "DAV:"}}}
	for i := 0; i < n; i++ {
		response := &Element{Name: "response", Nodes: []Node{{Text: "/d/" + strconv.Itoa(i)}}}
		for j := 0; j < i%90; j++ {
			response.Nodes = append(response.Nodes, Node{Element: &Element{Name: "leaf", Nodes: []Node{{Text: strconv.Itoa(j)}}}})
		}
		root.Nodes = append(root.Nodes, Node{Element: response}, Node{Text: "\n"})
	}
	return Response{Status: 207, Fields: []Field{{Name: "a", Value: "b"}}, Root: root}
}

// copied returns a copy of an element.
func copied(e *Element) *Element {
	other := *e
	other.Nodes = nil
	for _, node := range e.Nodes {
		if node.Element != nil {
			node.Element = copied(node.Element)
		}
		other.Nodes = append(other.Nodes, node)
	}
	return &other
}

func TestDecodeEach(t *testing.T) {
	for _, n := range []int{0, 1, 63, 64, 65, 257, 1000} {
		whole := multistatus(n)
		var found []Node
		reply, err := DecodeEach(appendReply(nil, whole), func(e *Element) {
			found = append(found, Node{Element: copied(e)}, Node{Text: "\n"})
		})
		if err != nil {
			t.Fatal(err)
		}
		got := reply.(Response)
		if len(got.Root.Nodes) != 0 {
			t.Errorf("%d elements: the root has %d nodes", n, len(got.Root.Nodes))
		}
		if got.Root.Nodes = found; !reflect.DeepEqual(got, whole) {
			t.Errorf("%d elements: %+v, want %+v", n, got, whole)
		}
	}
}

func TestDecodeEachOfOtherReplies(t *testing.T) {
	none := func(*Element) { t.Error("an element is passed on") }
	for _, want := range []Reply{Done{}, Failed{Status: 507}, Response{Status: 404}, Part{MediaType: "x", Bytes: []byte("y")}} {
		if got, err := DecodeEach(appendReply(nil, want), none); err != nil || !reflect.DeepEqual(got, want) {
			t.Errorf("%+v, %v, want %+v", got, err, want)
		}
	}
	if _, err := DecodeEach(nil, none); !errors.Is(err, ErrMalformed) {
		t.Errorf("no bytes: %v", err)
	}
}

// DecodeEach refuses what Decode refuses, with the same error.
func TestDecodeEachRefuses(t *testing.T) {
	replies := [][]byte{
		append(appendReply(nil, multistatus(2)), 0),
		appendReply(nil, Response{Status: 207, Root: nested(273)}),
		appendReply(nil, Response{Status: 207, Root: &Element{Nodes: []Node{{Text: "\xff"}}}}),
	}
	whole := appendReply(nil, multistatus(2))
	for end := range whole {
		replies = append(replies, whole[:end])
	}
	for _, b := range replies {
		_, want := Decode(b)
		_, err := DecodeEach(b, func(*Element) {})
		if !errors.Is(err, ErrMalformed) || err.Error() != want.Error() {
			t.Errorf("%d bytes: %v, want %v", len(b), err, want)
		}
	}
}

func TestDecodeEachOfTheGreatestLevels(t *testing.T) {
	if _, err := DecodeEach(appendReply(nil, Response{Status: 207, Root: nested(272)}), func(*Element) {}); err != nil {
		t.Errorf("272 levels: %v", err)
	}
}

func TestDecodeEachNeedsLittleMemory(t *testing.T) {
	b := appendReply(nil, multistatus(3000))
	whole := allocated(func() { Decode(b) })
	if each := allocated(func() { DecodeEach(b, func(*Element) {}) }); each > whole/2 {
		t.Errorf("%d bytes are allocated for a reply of %d, and %d by Decode", each, len(b), whole)
	}
}
