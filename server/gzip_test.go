package davserve

import (
	"bytes"
	"compress/gzip"
	"fmt"
	"io"
	"net/http"
	"strings"
	"testing"
)

func TestWhoAcceptsGzip(t *testing.T) {
	tests := []struct {
		fields []string
		want   bool
	}{
		{nil, false},
		{[]string{""}, false},
		{[]string{"compress, gzip"}, true}, // RFC 9110, section 12.5.3, as the next three
		{[]string{"*"}, true},
		{[]string{"compress;q=0.5, gzip;q=1.0"}, true},
		{[]string{"gzip;q=1.0, identity; q=0.5, *;q=0"}, true},
		{[]string{"identity"}, false},
		{[]string{"GZip"}, true},
		{[]string{"x-gzip"}, true},
		{[]string{"gzip;q=0"}, false},
		{[]string{"gzip; Q = 0.000"}, false},
		{[]string{"gzip;q=0.001"}, true},
		{[]string{"gzip;q=no"}, false},
		{[]string{"*;q=0"}, false},
		{[]string{"gzip;q=0, *"}, false},
		{[]string{"*, gzip;q=0"}, false},
		{[]string{"deflate", "gzip"}, true},
		{[]string{"gzippy"}, false},
	}
	for _, test := range tests {
		if got := acceptsGzip(http.Header{"Accept-Encoding": test.fields}); got != test.want {
			t.Errorf("%q: %v, want %v", test.fields, got, test.want)
		}
	}
}

func TestALongMultistatusIsCompressed(t *testing.T) {
	c := startServer(t, Options{})
	tests := []struct {
		name      string
		members   int
		encoding  string
		isLimited bool // its length is known
	}{
		{"short", 0, "", true},
		{"long", 10, "gzip", true},
		{"longer than what is kept", 2000, "gzip", false},
	}
	for number, test := range tests {
		path := fmt.Sprintf("/%d/", number)
		c.want(201, "MKCOL", path, "")
		for member := 0; member < test.members; member++ {
			c.want(201, "PUT", fmt.Sprint(path, member), "")
		}
		t.Run(test.name, func(t *testing.T) {
			ask := func(accepted string) (*http.Response, string) {
				body := strings.NewReader(`<propfind xmlns="DAV:"><prop><getetag/></prop></propfind>`)
				return c.do("PROPFIND", path, body, "Depth: 1", "Accept-Encoding: "+accepted)
			}
			_, plain := ask("identity")
			response, zipped := ask("gzip")
			if got := response.Header.Get("Content-Encoding"); got != test.encoding {
				t.Fatalf("Content-Encoding: %q, want %q", got, test.encoding)
			}
			if got := response.Header.Get("Vary"); got != "Accept-Encoding" {
				t.Errorf("Vary: %q", got)
			}
			if isKnown := response.ContentLength == int64(len(zipped)); isKnown != test.isLimited {
				t.Errorf("Content-Length: %d of %d bytes", response.ContentLength, len(zipped))
			}
			if test.encoding != "" && len(zipped) > len(plain)/4 {
				t.Errorf("%d bytes of %d", len(zipped), len(plain))
			}
			if got := unzipped(t, zipped, test.encoding); got != plain {
				t.Errorf("got %d bytes, want %d", len(got), len(plain))
			}
		})
	}
}

// unzipped returns what a body contains that is encoded so.
func unzipped(t *testing.T, body, encoding string) string {
	t.Helper()
	if encoding == "" {
		return body
	}
	reader, err := gzip.NewReader(bytes.NewReader([]byte(body)))
	if err != nil {
		t.Fatal(err)
	}
	text, err := io.ReadAll(reader)
	if err != nil {
		t.Fatal(err)
	}
	return string(text)
}
