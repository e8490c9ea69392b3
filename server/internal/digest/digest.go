// Package digest compares what a client uploads with the digests that it announces.
package digest

import (
	"bytes"
	"crypto/md5"
	"crypto/sha1"
	"crypto/sha256"
	"crypto/sha512"
	"encoding/base64"
	"encoding/hex"
	"errors"
	"fmt"
	"hash"
	"hash/adler32"
	"io"
	"net/http"
	"strings"
)

// ErrDiffers says that a content has another digest than the announced one.
var ErrDiffers = errors.New("the content has another digest")

// An algorithm has a new hash for each content. The names of the fields and of their algorithms are in lower case.
type algorithm func() hash.Hash

// sums are the algorithms of OC-Checksum, the field of the clients of ownCloud and Nextcloud.
var sums = map[string]algorithm{
	"adler32": func() hash.Hash { return adler32.New() },
	"md5":     md5.New,
	"sha1":    sha1.New,
	"sha256":  sha256.New,
}

// algorithms are those of RFC 9530, section 5.
var algorithms = map[string]algorithm{
	"adler":   func() hash.Hash { return adler32.New() },
	"md5":     md5.New,
	"sha":     sha1.New,
	"sha-256": sha256.New,
	"sha-512": sha512.New,
}

// most is how many digests of one content are compared.
const most = 8

// A sum is a digest that was announced, and the hash of what was read so far.
type sum struct {
	want []byte
	hash hash.Hash
}

// A Content is what is uploaded, and the digests that it has to have.
type Content struct {
	sums []sum
}

// Announced returns the content of an upload whose header has these fields. Of the fields these count:
//
//   - Content-MD5 (RFC 1864) and Content-Digest (RFC 9530, section 2)
//   - Repr-Digest (RFC 9530, section 3) and OC-Checksum, unless the content is only a part of the file
//
// Algorithms that are not known are left out. A digest that cannot be read is an error, and so are more than eight.
func Announced(header http.Header, isPart bool) (*Content, error) {
	var content Content
	for _, value := range header["Content-Md5"] {
		if err := content.addBase64(md5.New, value); err != nil {
			return nil, fmt.Errorf("Content-MD5: %w", err)
		}
	}
	if err := content.addFields("Content-Digest", header["Content-Digest"]); err != nil {
		return nil, err
	}
	if isPart {
		return &content, nil
	}
	if err := content.addFields("Repr-Digest", header["Repr-Digest"]); err != nil {
		return nil, err
	}
	for _, value := range header["Oc-Checksum"] {
		if err := content.addChecksums(value); err != nil {
			return nil, fmt.Errorf("OC-Checksum: %w", err)
		}
	}
	return &content, nil
}

// addFields adds the members of a dictionary (RFC 9651, section 3.2) whose values are byte sequences: `sha-256=:BASE64:`.
func (c *Content) addFields(name string, values []string) error {
	for _, member := range strings.Split(strings.Join(values, ","), ",") {
		key, value, _ := strings.Cut(strings.TrimSpace(member), "=")
		of, isKnown := algorithms[key]
		if !isKnown {
			continue
		}
		value, _, _ = strings.Cut(value, ";") // What follows are parameters, of which there are none yet.
		value = strings.TrimRight(value, " ")
		if len(value) < 2 || value[0] != ':' || value[len(value)-1] != ':' {
			return fmt.Errorf("%s: %q is no byte sequence", name, value)
		}
		if err := c.addBase64(of, value[1:len(value)-1]); err != nil {
			return fmt.Errorf("%s: %w", name, err)
		}
	}
	return nil
}

// addChecksums adds the digests of OC-Checksum: `SHA1:HEX`, and several with spaces between them.
func (c *Content) addChecksums(value string) error {
	for _, word := range strings.Fields(value) {
		name, text, _ := strings.Cut(word, ":")
		of, isKnown := sums[strings.ToLower(name)]
		if !isKnown {
			continue
		}
		want, err := hex.DecodeString(text)
		if err != nil {
			return err
		}
		if err := c.add(of(), want); err != nil {
			return err
		}
	}
	return nil
}

func (c *Content) addBase64(of algorithm, text string) error {
	want, err := base64.StdEncoding.DecodeString(strings.TrimSpace(text))
	if err != nil {
		return err
	}
	return c.add(of(), want)
}

func (c *Content) add(hash hash.Hash, want []byte) error {
	switch {
	case len(want) != hash.Size():
		return fmt.Errorf("a digest of %d bytes, where the algorithm has %d", len(want), hash.Size())
	case len(c.sums) == most:
		return fmt.Errorf("more than %d digests", most)
	}
	c.sums = append(c.sums, sum{want, hash})
	return nil
}

// Reader returns what reads the content from body and computes its digests.
func (c *Content) Reader(body io.Reader) io.Reader {
	if len(c.sums) == 0 {
		return body
	}
	return io.TeeReader(body, c)
}

// Write implements io.Writer: it takes the next bytes of the content. The error is always nil.
func (c *Content) Write(p []byte) (int, error) {
	for _, it := range c.sums {
		it.hash.Write(p)
	}
	return len(p), nil
}

// Check returns ErrDiffers if what was read does not have each announced digest.
func (c *Content) Check() error {
	for _, it := range c.sums {
		if !bytes.Equal(it.hash.Sum(nil), it.want) {
			return ErrDiffers
		}
	}
	return nil
}
