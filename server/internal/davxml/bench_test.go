package davxml

import (
	"fmt"
	"io"
	"strings"
	"testing"

	"davserve/internal/frame"
)

const propfind = `<?xml version="1.0" encoding="utf-8"?>
<D:propfind xmlns:D="DAV:">
  <D:prop>
    <D:resourcetype/>
    <D:getcontentlength/>
    <D:getlastmodified/>
    <D:getetag/>
    <D:displayname/>
  </D:prop>
</D:propfind>
`

// dav returns an element of davd.
func dav(name string, nodes ...frame.Node) frame.Node {
	return element(frame.Element{Name: name, Prefix: "D", Nodes: nodes})
}

// multistatus returns a response to a PROPFIND for five properties of each of some members.
func multistatus(members int) *frame.Element {
	root := dav("multistatus").Element
	root.Attributes = []frame.Attribute{{Name: "xmlns:D", Value: "DAV:"}}
	for i := 0; i < members; i++ {
		note := frame.Element{
			Name: "note", Prefix: "x", Namespace: "http://example.com/ns",
			Attributes: []frame.Attribute{{Name: "xmlns:x", Value: "http://example.com/ns"}},
			Nodes:      []frame.Node{text("a < b")},
		}
		root.Nodes = append(root.Nodes, dav("response",
			dav("href", text(fmt.Sprintf("/dav/folder/file%%20%d.txt", i))),
			dav("propstat",
				dav("prop",
					dav("resourcetype"),
					dav("getcontentlength", text(fmt.Sprint(i))),
					dav("getlastmodified", text("Thu, 01 Jan 1970 00:00:05 GMT")),
					dav("getetag", text(fmt.Sprintf("%q", fmt.Sprint(i)))),
					element(note)),
				dav("status", text("HTTP/1.1 200 OK")))))
	}
	return root
}

func BenchmarkParsePropfind(b *testing.B) {
	b.SetBytes(int64(len(propfind)))
	b.ReportAllocs()
	for i := 0; i < b.N; i++ {
		if _, err := Parse(strings.NewReader(propfind), LimitsFor(1<<20)); err != nil {
			b.Fatal(err)
		}
	}
}

func BenchmarkAppendMultistatus(b *testing.B) {
	root := multistatus(1000)
	document := Append(nil, root)
	b.SetBytes(int64(len(document)))
	b.ReportAllocs()
	for i := 0; i < b.N; i++ {
		document = Append(document[:0], root)
	}
}

func BenchmarkWriteMultistatus(b *testing.B) {
	root := multistatus(1000)
	b.SetBytes(int64(len(Append(nil, root))))
	b.ReportAllocs()
	for i := 0; i < b.N; i++ {
		if err := Write(io.Discard, root); err != nil {
			b.Fatal(err)
		}
	}
}
