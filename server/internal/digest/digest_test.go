package digest

import (
	"errors"
	"io"
	"net/http"
	"strings"
	"testing"
)

// hello is the representation of the examples of RFC 9530, appendix A, and the digests are theirs.
const (
	hello      = "{\"hello\": \"world\"}\n"
	hello256   = "sha-256=:RK/0qy18MlBSVnWgjwz6lZEWjP/lF5HF9bvEF8FabDg=:"
	hello512   = "sha-512=:YMAam51Jz/jOATT6/zvHrLVgOYTGFy1d6GJiOHTohq4yP+pgk4vf2aCsyRZOtw8MjkM7iw7yZ/WkppmM44T3qg==:"
	other256   = "sha-256=:X48E9qOokqqrvdts8nOJRJN3OWDUoyWxBf7kbu9DBPE=:"
	abcMD5     = "kAFQmDzST7DWlj99KOF/cg==" // RFC 1321, appendix A.5: 900150983cd24fb0d6963f7d28e17f72
	abcSHA1    = "a9993e364706816aba3e25717850c26c9cd0d89d"
	abcSHA256  = "ba7816bf8f01cfea414140de5dae2223b00361a396177a9cb410ff61f20015ad"
	abcAdler32 = "024d0127"
)

// read reads a content that comes with these fields. It returns the error of Announced and that of Check.
func read(t *testing.T, body string, isPart bool, fields ...string) (announced, checked error) {
	t.Helper()
	header := http.Header{}
	for _, field := range fields {
		name, value, _ := strings.Cut(field, ": ")
		header.Add(name, value)
	}
	content, err := Announced(header, isPart)
	if err != nil {
		return err, nil
	}
	if _, err := io.ReadAll(content.Reader(halves(body))); err != nil {
		t.Fatal(err)
	}
	return nil, content.Check()
}

// halves returns a reader of a text that returns it in two parts.
func halves(text string) io.Reader {
	half := len(text) / 2
	return io.MultiReader(strings.NewReader(text[:half]), strings.NewReader(text[half:]))
}

func TestTheDigestsOfAContent(t *testing.T) {
	tests := []struct {
		name   string
		body   string
		fields []string
		want   error
	}{
		{"none", "abc", nil, nil},
		{"Repr-Digest", hello, []string{"Repr-Digest: " + hello256}, nil},
		{"Content-Digest", hello, []string{"Content-Digest: " + hello512}, nil},
		{"two of one field", hello, []string{"Repr-Digest: " + hello256 + ", " + hello512}, nil},
		{"two fields of one name", hello, []string{"Repr-Digest: " + hello256, "Repr-Digest: " + hello512}, nil},
		{"with a parameter", hello, []string{"Repr-Digest: " + hello256 + ";a=1"}, nil},
		{"the second differs", hello, []string{"Repr-Digest: " + hello512 + ", " + other256}, ErrDiffers},
		{"one of two fields differs", hello, []string{"Repr-Digest: " + other256, "Content-Digest: " + hello256}, ErrDiffers},
		{"an unknown algorithm", hello, []string{"Repr-Digest: sha-9=:AAAA:, " + hello256}, nil},
		{"only an unknown algorithm", hello, []string{"Repr-Digest: unixsum=1"}, nil},
		{"Content-MD5", "abc", []string{"Content-MD5: " + abcMD5}, nil},
		{"Content-MD5 differs", "abd", []string{"Content-MD5: " + abcMD5}, ErrDiffers},
		{"OC-Checksum", "abc", []string{"OC-Checksum: SHA1:" + abcSHA1}, nil},
		{"OC-Checksum in upper case", "abc", []string{"OC-Checksum: sha256:" + strings.ToUpper(abcSHA256)}, nil},
		{"OC-Checksum of several", "abc", []string{"OC-Checksum: SHA1:" + abcSHA1 + " ADLER32:" + abcAdler32 + " MD9:1"}, nil},
		{"OC-Checksum differs", "abd", []string{"OC-Checksum: SHA1:" + abcSHA1}, ErrDiffers},
		{"one more byte", "abcd", []string{"OC-Checksum: ADLER32:" + abcAdler32}, ErrDiffers},
		{"an empty content", "", []string{"OC-Checksum: SHA1:" + abcSHA1}, ErrDiffers},
	}
	for _, test := range tests {
		t.Run(test.name, func(t *testing.T) {
			err, got := read(t, test.body, false, test.fields...)
			if err != nil || !errors.Is(got, test.want) {
				t.Errorf("Announced: %v, Check: %v, want %v", err, got, test.want)
			}
		})
	}
}

func TestAPartHasNoDigestOfTheWholeFile(t *testing.T) {
	err, got := read(t, "b", true, "Repr-Digest: "+hello256, "OC-Checksum: SHA1:"+abcSHA1)
	if err != nil || got != nil {
		t.Errorf("Announced: %v, Check: %v, want none", err, got)
	}
	if _, got = read(t, "b", true, "Content-Digest: "+hello256); got != ErrDiffers {
		t.Errorf("Check: %v, want %v", got, ErrDiffers)
	}
}

func TestADigestThatCannotBeRead(t *testing.T) {
	for _, field := range []string{
		"Content-MD5: abc",
		"Content-MD5: YWJj",
		"Repr-Digest: sha-256=RK/0qy18MlBSVnWgjwz6lZEWjP/lF5HF9bvEF8FabDg=",
		"Repr-Digest: sha-256=:RK/0:",
		"Repr-Digest: sha-256",
		"Content-Digest: md5=:?:",
		"OC-Checksum: SHA1:xyz",
		"OC-Checksum: MD5:00",
		"Repr-Digest: " + strings.Repeat(hello256+", ", most) + hello256,
	} {
		if err, _ := read(t, hello, false, field); err == nil {
			t.Errorf("%s: no error", field)
		}
	}
}
