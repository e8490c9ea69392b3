package davserve

import (
	"crypto/sha256"
	"encoding/base64"
	"strings"
	"testing"
)

// reprDigest returns the field Repr-Digest of a content (RFC 9530, section 3).
func reprDigest(content string) string {
	sum := sha256.Sum256([]byte(content))
	return "Repr-Digest: sha-256=:" + base64.StdEncoding.EncodeToString(sum[:]) + ":"
}

func TestAnUploadWithAnotherDigestIsNotStored(t *testing.T) {
	tests := []struct {
		name    string
		folder  bool
		content string
	}{
		{"in memory, in one piece", false, "new"},
		{"in memory, in several pieces", false, strings.Repeat("new", piece)},
		{"over a folder, in one piece", true, "new"},
		{"over a folder, in several pieces", true, strings.Repeat("new", piece)},
	}
	for _, test := range tests {
		t.Run(test.name, func(t *testing.T) {
			options := Options{MaxBody: 1 << 20}
			if test.folder {
				options.Folder = t.TempDir()
			}
			c := startServer(t, options)
			c.want(201, "PUT", "/f", "old")
			c.want(412, "PUT", "/f", test.content, reprDigest("else"))
			c.want(412, "PUT", "/none", test.content, reprDigest("else"))
			if got := c.want(200, "GET", "/f", ""); got != "old" {
				t.Errorf("GET /f: %d bytes, want old", len(got))
			}
			c.want(404, "GET", "/none", "")
			c.want(204, "PUT", "/f", test.content, reprDigest(test.content))
			if got := c.want(200, "GET", "/f", ""); got != test.content {
				t.Errorf("GET /f: %d bytes, want %d", len(got), len(test.content))
			}
		})
	}
}

func TestAPartOfAFileNeedNotHaveItsDigest(t *testing.T) {
	c := startServer(t, Options{})
	c.want(201, "PUT", "/f", "hello")
	c.want(204, "PUT", "/f", "E", "Content-Range: bytes 1-1/5", reprDigest("hello"))
	if got := c.want(200, "GET", "/f", ""); got != "hEllo" {
		t.Errorf("GET /f: %q, want hEllo", got)
	}
}
