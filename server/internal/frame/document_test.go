package frame

import (
	"bytes"
	"encoding/hex"
	"fmt"
	"io"
	"os"
	"reflect"
	"strings"
	"testing"
)

// The example of docs/FRAMES.md, without what it says about each line.
const (
	documentFrames = `
		00 00 00 00 00 00 00 01
		00 00 00 00 00 00 00 05
		00 00 00 00 00 00 00 6c
		00 00 00 00 00 00 00 02
		00 00 00 00 00 00 00 37
		00
		00 00 00 00 00 00 00 03 'PUT'
		00 00 00 00 00 00 00 02 '/a'
		00
		00 00 00 00 00 00 00 05 'urn:t'
		00 00 00 00 00 00 00 00
		01
		00 00 00 00 00 00 00 02 'hi'
		00 00 00 00 00 00 00 1d
		04
		00
		00 00 00 00 00 00 00 02 '/a'
		00 00 00 00 00 00 00 00
		00 00 00 00 00 00 00 64
		00
	`
	documentReplies = `
		00 00 00 00 00 00 00 01
		00 00 00 00 00 00 00 c8
		00 00 00 00 00 00 00 02
		00 00 00 00 00 00 00 a5
		00
		00 00 00 00 00 00 00 c9
		00
		00 00 00 00 00 00 00 04
		00 00 00 00 00 00 00 0d 'accept-ranges'
		00 00 00 00 00 00 00 05 'bytes'
		00 00 00 00 00 00 00 0e 'content-length'
		00 00 00 00 00 00 00 01 '0'
		00 00 00 00 00 00 00 04 'etag'
		00 00 00 00 00 00 00 03 '"2"'
		00 00 00 00 00 00 00 0d 'last-modified'
		00 00 00 00 00 00 00 1d 'Thu, 01 Jan 1970 00:00:05 GMT'
		00
		00 00 00 00 00 00 00 46
		03
		00 00 00 00 00 00 00 02
		01 00 00 00 00 00 00 00 05
		01 00 00 00 00 00 00 00 01 '2'
		00 00 00 00 00 00 00 18 'application/octet-stream'
		00 00 00 00 00 00 00 02 'hi'
	`
)

// documentBytes returns the bytes of an example.
func documentBytes(t *testing.T, example string) []byte {
	t.Helper()
	var b []byte
	for _, line := range strings.Split(example, "\n") {
		digits, quoted, _ := strings.Cut(line, "'")
		some, err := hex.DecodeString(strings.Join(strings.Fields(digits), ""))
		if err != nil {
			t.Fatalf("%s: %v", line, err)
		}
		b = append(append(b, some...), strings.TrimSuffix(quoted, "'")...)
	}
	return b
}

func TestDocumentFrames(t *testing.T) {
	frames := [][]byte{
		Append(nil, Request{Method: "PUT", Path: "/a", Token: "urn:t", Body: Bytes("hi")}),
		Append(nil, Read{Path: "/a", Count: 100}),
	}
	got := AppendBatchHeader(nil, BatchHeader{Number: 1, Time: 5, Length: ContentLen(frames)})
	if len(got) != HeaderLen {
		t.Errorf("the header has %d bytes", len(got))
	}
	got = AppendContent(got, frames)
	if expected := documentBytes(t, documentFrames); !bytes.Equal(got, expected) || len(got) != 132 {
		t.Errorf("%x, expected %x", got, expected)
	}
}

func TestDocumentReplies(t *testing.T) {
	r := bytes.NewReader(documentBytes(t, documentReplies))
	header, err := ReadReplyHeader(r)
	if expected := (ReplyHeader{Number: 1, Status: 200, Count: 2}); err != nil || header != expected {
		t.Fatalf("%+v, %v, expected %+v", header, err, expected)
	}
	expected := []Reply{
		Response{Status: 201, Fields: []Field{
			{"accept-ranges", "bytes"},
			{"content-length", "0"},
			{"etag", `"2"`},
			{"last-modified", "Thu, 01 Jan 1970 00:00:05 GMT"},
		}},
		Part{
			Length: 2, Modified: pointer(uint64(5)), ETag: pointer("2"), MediaType: "application/octet-stream",
			Bytes: []byte("hi"),
		},
	}
	for i := range expected {
		b, err := ReadReply(r, 165, nil)
		if err != nil {
			t.Fatal(err)
		}
		if got, err := Decode(b); err != nil || !reflect.DeepEqual(got, expected[i]) {
			t.Errorf("%#v, %v, expected %#v", got, err, expected[i])
		}
	}
	if _, err := ReadReplyHeader(r); err != io.EOF {
		t.Errorf("%v, expected io.EOF", err)
	}
}

// The tables of docs/FRAMES.md have a row for each frame and each reply that is encoded and decoded here.
func TestDocumentTables(t *testing.T) {
	text, err := os.ReadFile("../../../docs/FRAMES.md")
	if err != nil {
		t.Fatal(err)
	}
	for _, test := range []struct {
		head     string
		greatest int
	}{
		{"\n| byte | frame | content |\n|---|---|---|\n", frameSetModified},
		{"\n| byte | body | content |\n|---|---|---|\n", bodyMalformed},
		{"\n| byte | reply | content |\n|---|---|---|\n", replyLocks},
	} {
		_, table, _ := strings.Cut(string(text), test.head)
		rows, _, _ := strings.Cut(table, "\n\n")
		for i, row := range strings.Split(rows, "\n") {
			if !strings.HasPrefix(row, fmt.Sprintf("| %d | ", i)) {
				t.Errorf("row %d of the table%sis %q", i, test.head, row)
			}
		}
		if got := strings.Count(rows, "\n"); got != test.greatest {
			t.Errorf("the table%shas rows up to %d, want %d", test.head, got, test.greatest)
		}
	}
}
