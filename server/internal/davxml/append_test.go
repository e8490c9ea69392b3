package davxml

import (
	"bytes"
	"errors"
	"strings"
	"testing"

	"davserve/internal/frame"
)

func TestAppend(t *testing.T) {
	dav := []frame.Attribute{{Name: "xmlns:D", Value: "DAV:"}}
	tests := []struct {
		name string
		root frame.Element
		want string
	}{
		{"one element", frame.Element{Name: "a"}, `<a/>`},
		{"the elements of davd have a prefix and no namespace", frame.Element{
			Name: "multistatus", Prefix: "D", Attributes: dav,
			Nodes: []frame.Node{element(frame.Element{Name: "response", Prefix: "D", Nodes: []frame.Node{text("x")}})},
		}, `<D:multistatus xmlns:D="DAV:"><D:response>x</D:response></D:multistatus>`},
		{"a prefix that is bound", frame.Element{
			Name: "prop", Prefix: "D", Attributes: dav,
			Nodes: []frame.Node{element(frame.Element{Name: "a", Prefix: "D", Namespace: "DAV:"})},
		}, `<D:prop xmlns:D="DAV:"><D:a/></D:prop>`},
		{"a prefix that is not bound", frame.Element{
			Name: "prop", Prefix: "D", Attributes: dav,
			Nodes: []frame.Node{
				element(frame.Element{Name: "a", Prefix: "x", Namespace: "urn:x", Nodes: []frame.Node{
					element(frame.Element{Name: "b", Prefix: "x", Namespace: "urn:x"}),
				}}),
				element(frame.Element{Name: "c", Prefix: "x", Namespace: "urn:x"}),
			},
		}, `<D:prop xmlns:D="DAV:"><x:a xmlns:x="urn:x"><x:b/></x:a><x:c xmlns:x="urn:x"/></D:prop>`},
		{"a prefix that is bound to another namespace", frame.Element{
			Name: "prop", Prefix: "D", Attributes: dav,
			Nodes: []frame.Node{
				element(frame.Element{Name: "a", Prefix: "D", Namespace: "urn:x", Nodes: []frame.Node{
					element(frame.Element{Name: "b", Prefix: "D", Namespace: "DAV:"}),
				}}),
				element(frame.Element{Name: "c", Prefix: "D"}),
			},
		}, `<D:prop xmlns:D="DAV:"><D:a xmlns:D="urn:x"><D:b xmlns:D="DAV:"/></D:a><D:c/></D:prop>`},
		{"default namespaces", frame.Element{Name: "a", Namespace: "1", Nodes: []frame.Node{
			element(frame.Element{Name: "b", Namespace: "1"}),
			element(frame.Element{Name: "c", Nodes: []frame.Node{element(frame.Element{Name: "d"})}}),
			element(frame.Element{Name: "e", Namespace: "2"}),
		}}, `<a xmlns="1"><b/><c xmlns=""><d/></c><e xmlns="2"/></a>`},
		{"declarations as written", frame.Element{
			Name: "a", Namespace: "1",
			Attributes: []frame.Attribute{{Name: "xmlns", Value: "1"}, {Name: "xmlns:p", Value: "2"}},
			Nodes: []frame.Node{element(frame.Element{
				Name: "b", Prefix: "p", Namespace: "2", Attributes: []frame.Attribute{{Name: "xmlns:p", Value: "2"}},
			})},
		}, `<a xmlns="1" xmlns:p="2"><p:b xmlns:p="2"/></a>`},
		{"a declaration that contradicts the prefix", frame.Element{
			Name: "a", Prefix: "p", Namespace: "1",
			Attributes: []frame.Attribute{
				{Name: "x", Value: "3"}, {Name: "xmlns:p", Value: "2"}, {Name: "xmlns:q", Value: "2"},
			},
		}, `<p:a x="3" xmlns:q="2" xmlns:p="1"/>`},
		{"attributes with the prefix of the contradiction", frame.Element{
			Name: "owner", Prefix: "D", Namespace: "DAV:",
			Attributes: []frame.Attribute{
				{Name: "D", Value: "1"}, {Name: "D:a", Value: "2"}, {Name: "DD:a", Value: "3"},
				{Name: "xmlns:D", Value: "urn:x"}, {Name: "xmlns:DD", Value: "DAV:"},
			},
			Nodes: []frame.Node{element(frame.Element{Name: "a", Prefix: "D", Namespace: "urn:x"})},
		}, `<D:owner D="1" DD:a="3" xmlns:DD="DAV:" xmlns:D="DAV:"><D:a xmlns:D="urn:x"/></D:owner>`},
		{"no contradiction without a namespace", frame.Element{
			Name: "a", Prefix: "p", Attributes: []frame.Attribute{{Name: "p:b", Value: "1"}, {Name: "xmlns:p", Value: "2"}},
		}, `<p:a p:b="1" xmlns:p="2"/>`},
		{"a declaration that contradicts the default namespace", frame.Element{
			Name: "a", Namespace: "1", Attributes: []frame.Attribute{{Name: "xmlns", Value: "2"}},
		}, `<a xmlns="1"/>`},
		{"a declaration that contradicts no namespace", frame.Element{
			Name: "a", Attributes: []frame.Attribute{{Name: "xmlns", Value: "2"}},
		}, `<a/>`},
		{"a contradiction in a scope that is right", frame.Element{
			Name: "a", Namespace: "1", Nodes: []frame.Node{element(frame.Element{
				Name: "b", Namespace: "1", Attributes: []frame.Attribute{{Name: "xmlns", Value: ""}},
			})},
		}, `<a xmlns="1"><b/></a>`},
		{"the prefix xml", frame.Element{
			Name: "a", Prefix: "xml", Namespace: "http://www.w3.org/XML/1998/namespace",
			Attributes: []frame.Attribute{{Name: "xml:lang", Value: "de"}},
		}, `<xml:a xml:lang="de"/>`},
		{"text", frame.Element{Name: "a", Nodes: []frame.Node{text("&<>\"'\t\n\r ]]>\u00e9\U0001F600"), text("")}},
			"<a>&amp;&lt;&gt;\"'\t\n&#13; ]]&gt;\u00e9\U0001F600</a>"},
		{"a value", frame.Element{
			Name: "a", Attributes: []frame.Attribute{{Name: "b", Value: "&<>\"'\t\n\r ]]>\u00e9\U0001F600"}},
		},
			"<a b=\"&amp;&lt;&gt;&quot;'&#9;&#10;&#13; ]]&gt;\u00e9\U0001F600\"/>"},
		{"a namespace", frame.Element{Name: "a", Namespace: "\"<&>"}, `<a xmlns="&quot;&lt;&amp;&gt;"/>`},
		{"what is no character", frame.Element{
			Name: "a", Attributes: []frame.Attribute{{Name: "b", Value: "\x00\x7f\x1f"}},
			Nodes: []frame.Node{text("1\x01\x0b\x0c2\x80\xc3\xed\xa0\x80\uFFFE\uFFFF3\uFFFD\uFEFF\u0085\xf4\x90\x80\x80")},
		}, "<a b=\"\uFFFD\x7f\uFFFD\">1\uFFFD\uFFFD\uFFFD2" + strings.Repeat("\uFFFD", 7) + "3\uFFFD\uFEFF\u0085" +
			strings.Repeat("\uFFFD", 4) + "</a>"},
		{"empty text only", frame.Element{Name: "a", Nodes: []frame.Node{text("")}}, "<a></a>"},
	}
	for _, test := range tests {
		t.Run(test.name, func(t *testing.T) {
			want := `<?xml version="1.0" encoding="utf-8"?>` + "\n" + test.want
			if got := string(Append(nil, &test.root)); got != want {
				t.Errorf("got  %s\nwant %s", got, want)
			}
			if got := string(Append([]byte("before"), &test.root)); got != "before"+want {
				t.Errorf("after other bytes: got %s", got)
			}
			var written bytes.Buffer
			if err := Write(&written, &test.root); err != nil || written.String() != want {
				t.Errorf("Write: %v, %s", err, written.String())
			}
		})
	}
}

func TestAppendLevels(t *testing.T) {
	root := &frame.Element{Name: "a", Prefix: "p", Namespace: "urn:p"}
	for i := 1; i < frame.ReplyLevels; i++ {
		root = &frame.Element{Name: "a", Prefix: "p", Namespace: "urn:p", Nodes: []frame.Node{{Element: root}}}
	}
	const levels = frame.ReplyLevels
	want := declaration + `<p:a xmlns:p="urn:p">` + strings.Repeat("<p:a>", levels-2) + "<p:a/>" +
		strings.Repeat("</p:a>", levels-1)
	if got := string(Append(nil, root)); got != want {
		t.Errorf("got %s", got)
	}
}

// A recorder records what is written, and fails once it has a number of bytes.
type recorder struct {
	bytes.Buffer
	greatest int // of the writes
	most     int
	writes   int
}

var errFull = errors.New("full")

func (r *recorder) Write(b []byte) (int, error) {
	r.writes++
	if len(b) > r.greatest {
		r.greatest = len(b)
	}
	if r.Len()+len(b) > r.most {
		return 0, errFull
	}
	return r.Buffer.Write(b)
}

func longTrees() map[string]*frame.Element {
	long := strings.Repeat("12345&7\u00e9\U0001F600\x80", 100_000)
	attributes := make([]frame.Attribute, 10_000)
	for i := range attributes {
		attributes[i] = frame.Attribute{Name: "a" + strings.Repeat("b", i%100), Value: "\r\n\t\x00"}
	}
	elements := make([]frame.Node, 100_000)
	for i := range elements {
		elements[i] = element(frame.Element{Name: "b"})
	}
	return map[string]*frame.Element{
		"members":            multistatus(1000),
		"many elements":      {Name: "a", Nodes: elements},
		"a long text":        {Name: "a", Nodes: []frame.Node{text(long)}},
		"a long value":       {Name: "a", Attributes: []frame.Attribute{{Name: "b", Value: long}}},
		"a long namespace":   {Name: "a", Namespace: long},
		"escapes":            {Name: "a", Nodes: []frame.Node{text(strings.Repeat("\r", 1_000_000))}},
		"continuation bytes": {Name: "a", Nodes: []frame.Node{text(strings.Repeat("\x80", 1_000_000))}},
		"many attributes":    {Name: "a", Attributes: attributes},
	}
}

func TestWriteInPieces(t *testing.T) {
	for name, root := range longTrees() {
		t.Run(name, func(t *testing.T) {
			want := Append(nil, root)
			r := &recorder{most: len(want)}
			if err := Write(r, root); err != nil || !bytes.Equal(r.Bytes(), want) {
				t.Errorf("got %d bytes, want %d: %v", r.Len(), len(want), err)
			}
			if r.greatest > 64<<10 || r.writes > 2+len(want)/pieceBytes {
				t.Errorf("%d writes of up to %d bytes", r.writes, r.greatest)
			}
			for _, most := range []int{0, len(want) / 2, len(want) - 1} {
				r := &recorder{most: most}
				if err := Write(r, root); err != errFull {
					t.Errorf("%d bytes: %v", most, err)
				}
				if r.writes > 1+most/pieceBytes {
					t.Errorf("%d bytes: %d writes", most, r.writes)
				}
			}
		})
	}
}
