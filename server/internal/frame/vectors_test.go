package frame

import (
	"bytes"
	"encoding/hex"
	"errors"
	"os"
	"reflect"
	"strings"
	"testing"
)

// The files of vectors in testdata are written by testdata/vectors.py with a codec in Python. Names and values are the
// same there and here.

func pointer[T any](v T) *T {
	return &v
}

var (
	vectorFields = []Field{{"depth", "0"}, {"x-bytes", "\x00\xff"}, {"", ""}}
	vectorTree   = &Element{
		Name: "multistatus", Prefix: "D", Namespace: "DAV:",
		Attributes: []Attribute{{"a", ""}, {"xmlns:D", "DAV:"}, {"xmlns:\uffff", "1"}, {"xmlns:\U00010000", "2"}},
		Nodes: []Node{
			{Text: "\n"},
			{Element: &Element{
				Name: "response", Prefix: "D", Namespace: "DAV:",
				Nodes: []Node{{Element: &Element{
					Name: "href", Prefix: "D", Namespace: "DAV:", Nodes: []Node{{Text: "/\u00e9"}},
				}}},
			}},
			{Text: ""},
			{Element: &Element{Name: "x"}},
		},
	}
)

const greatest = 1<<64 - 1

var vectorFrames = map[string]Frame{
	"request-without-body": Request{Method: "MKCOL", Path: "/%C3%A9", Token: "urn:t"},
	"request-of-principal": Request{
		Method: "MKCOL", Path: "/\u00e9\U0001f600", Principal: pointer("p"), Token: "urn:t", Fields: vectorFields,
	},
	"request-of-empty-strings": Request{Principal: pointer("")},
	"request-of-bytes": Request{
		Method: "PUT", Path: "/a", Principal: pointer("p"), Token: "urn:t", Fields: vectorFields[:1],
		Body: Bytes("\x00\x01\xff"),
	},
	"request-of-no-bytes":  Request{Method: "PUT", Path: "/a", Token: "urn:t", Body: Bytes(nil)},
	"request-of-stored":    Request{Method: "PUT", Path: "/a", Token: "urn:t", Body: Stored(greatest)},
	"request-of-element":   Request{Method: "LOCK", Path: "/a", Token: "urn:t", Body: vectorTree},
	"request-of-malformed": Request{Method: "LOCK", Path: "/a", Token: "urn:t", Body: Malformed{}},
	"start-body":           StartBody{},
	"add-to-body":          AddToBody{Number: 258, Bytes: []byte("more")},
	"add-nothing-to-body":  AddToBody{Number: greatest},
	"drop-body":            DropBody{Number: 3},
	"read":                 Read{Path: "/a", Count: 10},
	"read-of-version": Read{
		Principal: pointer("p"), Path: "/\u00e9", Offset: 1 << 32, Count: greatest, ETag: pointer("5-1"),
	},
	"next-expiry":       NextExpiry{},
	"held":              Held{},
	"begin-backup":      BeginBackup{},
	"end-backup":        EndBackup{},
	"set-rights":        SetRights{Rules: "[[rule]]\nuser = \"\u00e9\"\n"},
	"set-no-rights":     SetRights{},
	"explain":           Explain{Path: "/%C3%A9"},
	"explain-principal": Explain{Principal: pointer("p"), Path: "/a"},
	"list-locks":        ListLocks{},
	"remove-lock":       RemoveLock{Path: "/%C3%A9", Token: "urn:t"},
	"set-modified":      SetModified{Path: "/\u00e9", Time: greatest},
}

var vectorReplies = map[string]Reply{
	"response":                      Response{Status: 201},
	"response-close":                Response{Status: 400, Close: true, Fields: vectorFields},
	"response-with-tree":            Response{Status: 207, Fields: vectorFields[:1], Root: vectorTree},
	"response-with-empty-namespace": Response{Status: 207, Root: &Element{Name: "x", Nodes: []Node{{Text: "t"}}}},
	"response-with-greatest-status": Response{Status: 999},
	"response-with-least-status":    Response{Status: 100},
	"body-started":                  BodyStarted{Number: greatest},
	"done":                          Done{},
	"part": Part{
		Length: 1 << 40, Modified: pointer(uint64(7)), ETag: pointer("5-1"), MediaType: "text/plain;charset=\u00fc",
		Bytes: []byte("hello\x00\xff"),
	},
	"part-of-empty-file":      Part{Bytes: []byte{}},
	"part-with-empty-version": Part{Modified: pointer(uint64(0)), ETag: pointer(""), Bytes: []byte{}},
	"collection":              Collection{},
	"expiry":                  Expiry{Time: pointer(uint64(60))},
	"expiry-of-none":          Expiry{},
	"holdings":                Holdings{Locks: 2},
	"holdings-without-limit":  Holdings{Quota: &Quota{Used: 1}},
	"holdings-with-limit":     Holdings{Quota: &Quota{Used: 1, Total: pointer(uint64(2))}},
	"failed":                  Failed{Status: 507},
	"refused":                 Refused{Reason: "rule 3: \u00e9"},
	"refused-without-reason":  Refused{},
	"explained":               Explained{Rule: pointer(uint64(3)), List: true, Read: true},
	"explained-write":         Explained{Rule: pointer(uint64(greatest)), Write: true},
	"explained-by-no-rule":    Explained{List: true},
	"locks": Locks{
		{Token: "urn:1", Path: "/%C3%A9/", Principal: pointer("\u00e9"), Deep: true, Expires: pointer(uint64(60))},
		{Token: "urn:2", Path: "/a", Shared: true},
		{Principal: pointer(""), Expires: pointer(uint64(greatest))},
	},
	"no-locks": Locks(nil),
}

// vectorFailures has what the error for each vector of malformed.txt says.
var vectorFailures = map[string]string{
	"nothing":                        "byte 0: expected a reply, not the end",
	"kind-11":                        "byte 0: expected a reply, not the byte 11",
	"kind-255":                       "byte 0: expected a reply, not the byte 255",
	"done-and-a-byte":                "byte 1: expected the end",
	"body-started-and-a-byte":        "byte 9: expected the end",
	"body-started-cut":               "byte 1: expected a number, and 7 bytes are left",
	"flag-2":                         "byte 9: expected a flag, not the byte 2",
	"optional-tree-2":                "byte 18: expected an optional value, not the byte 2",
	"optional-number-2":              "byte 1: expected an optional value, not the byte 2",
	"optional-quota-2":               "byte 9: expected an optional value, not the byte 2",
	"fields-without-bytes":           "byte 10: expected a list, not the count 18446744073709551615 with 0 bytes left",
	"fields-whose-length-overflows":  "byte 10: expected a list, not the count 1152921504606846976 with 1 bytes left",
	"fields-one-too-many":            "byte 10: expected a list, not the count 2 with 19 bytes left",
	"field-cut":                      "byte 35: expected 9 bytes, and 1 are left",
	"name-of-greatest-length":        "byte 27: expected 18446744073709551615 bytes, and 0 are left",
	"name-of-greatest-signed-length": "byte 27: expected 9223372036854775807 bytes, and 0 are left",
	"name-not-utf8":                  "byte 27: expected UTF-8",
	"prefix-not-utf8":                "byte 37: expected UTF-8",
	"namespace-2":                    "byte 29: expected an optional value, not the byte 2",
	"attributes-without-bytes":       "byte 30: expected a list, not the count 18446744073709551615 with 1 bytes left",
	"attribute-not-utf8":             "byte 55: expected UTF-8",
	"attributes-equal":               "byte 55: expected names of attributes in ascending order",
	"attributes-descending":          "byte 72: expected names of attributes in ascending order",
	"attributes-prefix-after":        "byte 56: expected names of attributes in ascending order",
	"attributes-ascending-in-utf16":  "byte 58: expected names of attributes in ascending order",
	"node-3":                         "byte 38: expected a node, not the byte 3",
	"element-without-end":            "byte 38: expected a node, not the end",
	"element-within-without-end":     "byte 59: expected a node, not the end",
	"element-ended-twice":            "byte 39: expected the end",
	"string-not-utf8":                "byte 47: expected UTF-8",
	"string-overlong":                "byte 47: expected UTF-8",
	"string-surrogate":               "byte 47: expected UTF-8",
	"string-above-unicode":           "byte 47: expected UTF-8",
	"string-cut-in-character":        "byte 47: expected UTF-8",
	"version-not-utf8":               "byte 19: expected UTF-8",
	"media-type-not-utf8":            "byte 19: expected UTF-8",
	"part-cut":                       "byte 27: expected 2 bytes, and 1 are left",
	"part-and-a-byte":                "byte 28: expected the end",
	"reason-not-utf8":                "byte 9: expected UTF-8",
	"reason-cut":                     "byte 9: expected 2 bytes, and 1 are left",
	"explained-rule-2":               "byte 1: expected an optional value, not the byte 2",
	"explained-flag-2":               "byte 3: expected a flag, not the byte 2",
	"explained-without-write":        "byte 4: expected a flag, not the end",
	"explained-and-a-byte":           "byte 5: expected the end",
	"locks-without-bytes":            "byte 1: expected a list, not the count 18446744073709551615 with 0 bytes left",
	"locks-one-too-many":             "byte 1: expected a list, not the count 2 with 26 bytes left",
	"lock-token-not-utf8":            "byte 17: expected UTF-8",
	"lock-path-not-utf8":             "byte 26: expected UTF-8",
	"lock-principal-2":               "byte 27: expected an optional value, not the byte 2",
	"lock-deep-2":                    "byte 28: expected a flag, not the byte 2",
	"lock-shared-2":                  "byte 29: expected a flag, not the byte 2",
	"lock-time-cut":                  "byte 31: expected a number, and 7 bytes are left",
	"locks-and-a-byte":               "byte 31: expected the end",
}

// readVectors returns the vectors in a file by their names.
func readVectors(t testing.TB, file string) map[string][]byte {
	t.Helper()
	text, err := os.ReadFile("testdata/" + file)
	if err != nil {
		t.Fatal(err)
	}
	vectors := map[string][]byte{}
	for _, line := range strings.Split(strings.TrimSpace(string(text)), "\n") {
		name, digits, _ := strings.Cut(line, " ")
		b, err := hex.DecodeString(digits)
		if err != nil {
			t.Fatalf("%s: %s: %v", file, name, err)
		}
		vectors[name] = b
	}
	return vectors
}

// checkNames checks that there is a vector for each expected value, and no other.
func checkNames[T any](t *testing.T, vectors map[string][]byte, expected map[string]T) {
	t.Helper()
	for name := range vectors {
		if _, ok := expected[name]; !ok {
			t.Errorf("no value has the name of the vector %s", name)
		}
	}
	for name := range expected {
		if _, ok := vectors[name]; !ok {
			t.Errorf("no vector has the name of the value %s", name)
		}
	}
}

func TestAppendVectors(t *testing.T) {
	vectors := readVectors(t, "frames.txt")
	checkNames(t, vectors, vectorFrames)
	for name, f := range vectorFrames {
		if got := Append(nil, f); !bytes.Equal(got, vectors[name]) {
			t.Errorf("%s: %x, expected %x", name, got, vectors[name])
		}
		if got := Append([]byte("before"), f); !bytes.Equal(got, append([]byte("before"), vectors[name]...)) {
			t.Errorf("%s: %x after other bytes", name, got)
		}
	}
}

func TestDecodeVectors(t *testing.T) {
	vectors := readVectors(t, "replies.txt")
	checkNames(t, vectors, vectorReplies)
	for name, expected := range vectorReplies {
		got, err := Decode(vectors[name])
		if err != nil || !reflect.DeepEqual(got, expected) {
			t.Errorf("%s: %#v, %v, expected %#v", name, got, err, expected)
		}
	}
}

func TestDecodeMalformedVectors(t *testing.T) {
	vectors := readVectors(t, "malformed.txt")
	checkNames(t, vectors, vectorFailures)
	for name, b := range vectors {
		reply, err := Decode(b)
		if reply != nil || !errors.Is(err, ErrMalformed) {
			t.Errorf("%s: %#v, %v, expected ErrMalformed", name, reply, err)
		} else if expected := "malformed reply: " + vectorFailures[name]; err.Error() != expected {
			t.Errorf("%s: %v, expected %v", name, err, expected)
		}
	}
}

// Each value has one encoding, and none is the beginning of another.
func TestDecodeCutAndLonger(t *testing.T) {
	for name, b := range readVectors(t, "replies.txt") {
		for n := range b {
			if reply, err := Decode(b[:n]); reply != nil || !errors.Is(err, ErrMalformed) {
				t.Errorf("%s, %d bytes: %#v, %v, expected ErrMalformed", name, n, reply, err)
			}
		}
		if reply, err := Decode(append(b, 0)); reply != nil || !errors.Is(err, ErrMalformed) {
			t.Errorf("%s and a byte: %#v, %v, expected ErrMalformed", name, reply, err)
		}
	}
}
