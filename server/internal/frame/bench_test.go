package frame

import (
	"fmt"
	"testing"
)

// dav returns an element of the server.
func dav(name string, nodes ...Node) Node {
	return Node{Element: &Element{Name: name, Prefix: "D", Namespace: "DAV:", Nodes: nodes}}
}

// listing returns the response to a PROPFIND of Depth 1 of a collection with so many members, each of which has five
// properties.
func listing(members int) Response {
	var responses []Node
	for i := 0; i < members; i++ {
		responses = append(responses, dav("response",
			dav("href", Node{Text: fmt.Sprintf("/dav/collection/member%04d.txt", i)}),
			dav("propstat",
				dav("prop",
					dav("getcontentlength", Node{Text: fmt.Sprint(1000 + i)}),
					dav("getcontenttype", Node{Text: "text/plain"}),
					dav("getetag", Node{Text: fmt.Sprintf(`"%d"`, i)}),
					dav("getlastmodified", Node{Text: "Thu, 01 Jan 1970 00:00:05 GMT"}),
					dav("resourcetype"),
				),
				dav("status", Node{Text: "HTTP/1.1 200 OK"}),
			),
		))
	}
	root := dav("multistatus", responses...).Element
	root.Attributes = []Attribute{{"xmlns:D", "DAV:"}}
	fields := []Field{{"content-type", "application/xml; charset=utf-8"}}
	return Response{Status: 207, Fields: fields, Root: root}
}

func benchmarkDecode(b *testing.B, reply Reply) {
	encoded := appendReply(nil, reply)
	b.SetBytes(int64(len(encoded)))
	b.ReportAllocs()
	b.ResetTimer()
	for i := 0; i < b.N; i++ {
		if _, err := Decode(encoded); err != nil {
			b.Fatal(err)
		}
	}
}

func BenchmarkDecodeListing(b *testing.B) {
	for _, members := range []int{1, 10, 1000} {
		b.Run(fmt.Sprint(members), func(b *testing.B) { benchmarkDecode(b, listing(members)) })
	}
}

func BenchmarkDecodeResponse(b *testing.B) {
	benchmarkDecode(b, Response{Status: 201, Fields: []Field{
		{"accept-ranges", "bytes"}, {"content-length", "0"}, {"etag", `"2"`},
		{"last-modified", "Thu, 01 Jan 1970 00:00:05 GMT"},
	}})
}

func BenchmarkDecodePart(b *testing.B) {
	benchmarkDecode(b, Part{Length: 1 << 20, MediaType: "text/plain", Bytes: make([]byte, 1<<20)})
}

func BenchmarkAppendRequest(b *testing.B) {
	fields := []Field{{"depth", "1"}, {"user-agent", "client/1.0"}, {"if", "(<urn:uuid:0>)"}, {"timeout", "Second-60"}}
	f := Request{Method: "PUT", Path: "/a", Token: "urn:t", Fields: fields, Body: Bytes(make([]byte, 1024))}
	var encoded []byte
	b.ReportAllocs()
	for i := 0; i < b.N; i++ {
		encoded = Append(encoded[:0], f)
	}
	b.SetBytes(int64(len(encoded)))
}
