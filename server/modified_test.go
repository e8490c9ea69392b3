package davserve

import (
	"net/http"
	"net/http/httptest"
	"strings"
	"testing"
)

func TestModifiedOf(t *testing.T) {
	tests := []struct {
		value   string
		seconds int64
		ok      bool
	}{
		{"1000000000", 1000000000, true},
		{"0", 0, true},
		{"253370764799", 253370764799, true}, // 9998-12-31T23:59:59Z
		{"253370764800", 253370764800, false},
		{"-1", -1, false},
		{"99999999999999999999", 9223372036854775807, false},
		{"1.5", 0, false},
		{"yesterday", 0, false},
		{"", 0, false},
	}
	for _, test := range tests {
		header := http.Header{}
		header.Set(modifiedField, test.value)
		if seconds, ok := modifiedOf(header); ok != test.ok || ok && seconds != test.seconds {
			t.Errorf("modifiedOf(%q) = %d, %t, want %d, %t", test.value, seconds, ok, test.seconds, test.ok)
		}
	}
}

func TestWrittenBy(t *testing.T) {
	tests := []struct {
		method       string
		destinations []string
		want         string
	}{
		{"PUT", nil, "/from"},
		{"DELETE", nil, ""},
		{"COPY", []string{"/to"}, "/to"},
		{"MOVE", []string{"http://h:8080/to/%C3%A9/"}, "/to/%C3%A9/"},
		{"MOVE", []string{"https://[::1]/to"}, "/to"},
		{"COPY", nil, ""},
		{"COPY", []string{"/a", "/b"}, ""},
		{"COPY", []string{`http://h/a\b`}, ""}, // davd writes /a/b.
		{"COPY", []string{"http://h/a\tb"}, ""},
		{"COPY", []string{"/a/../b"}, ""},
		{"COPY", []string{"/a/%2E./b"}, ""},
		{"COPY", []string{"/a/."}, ""},
		{"COPY", []string{"/a/..b"}, "/a/..b"},
		{"COPY", []string{"/a?b"}, ""},
		{"COPY", []string{"//h/a"}, "//h/a"}, // which is refused before
		{"COPY", []string{"http://u@h/a"}, ""},
		{"COPY", []string{"a"}, ""},
	}
	for _, test := range tests {
		r := httptest.NewRequest(test.method, "/from", nil)
		r.Header["Destination"] = test.destinations
		if got := writtenBy(r); got != test.want {
			t.Errorf("writtenBy of a %s to %q = %q, want %q", test.method, test.destinations, got, test.want)
		}
	}
}

func TestWriteSetsTheTimeThatItsClientAsksFor(t *testing.T) {
	const asked, shown = modifiedField + ": 1000000000", "Sun, 09 Sep 2001 01:46:40 GMT"
	c := startServer(t, Options{})
	c.want(201, "MKCOL", "/d/", "")
	tests := []struct {
		name, method, path, written string
		fields                      []string
		status                      int
	}{
		{"a new file", "PUT", "/f", "/f", nil, 201},
		{"a file", "PUT", "/f", "/f", nil, 204},
		{"a file in a collection, with an escape", "PUT", "/d/%c3%a9", "/d/%C3%A9", nil, 201},
		{"a part of a file", "PUT", "/f", "/f", []string{"Content-Range: bytes 0-4/*"}, 204},
		{"a copy", "COPY", "/f", "/copy", []string{"Destination: /copy"}, 201},
		{"a copy, by a URL", "COPY", "/f", "/d/copy", []string{"Destination: " + c.server.URL + "/d/copy"}, 201},
		{"a move", "MOVE", "/copy", "/moved", []string{"Destination: /moved"}, 201},
	}
	for _, test := range tests {
		t.Run(test.name, func(t *testing.T) {
			body := strings.NewReader("")
			if test.method == "PUT" {
				body = strings.NewReader("hello")
			}
			c := client{t: t, server: c.server}
			response, _ := c.do(test.method, test.path, body, append(test.fields, asked)...)
			if got := response.Header.Get(modifiedField); response.StatusCode != test.status || got != "accepted" {
				t.Errorf("status %d and %q, want %d and %q", response.StatusCode, got, test.status, "accepted")
			}
			if got := response.Header.Get("Last-Modified"); got != "" && got != shown {
				t.Errorf("Last-Modified of the response is %q, want %q", got, shown)
			}
			response, _ = c.do("GET", test.written, nil)
			if got := response.Header.Get("Last-Modified"); got != shown {
				t.Errorf("Last-Modified is %q, want %q", got, shown)
			}
		})
	}
}

func TestFailedWriteSetsNoTime(t *testing.T) {
	c := startServer(t, Options{})
	c.want(201, "PUT", "/f", "hello")
	response, _ := c.do("GET", "/f", nil)
	before := response.Header.Get("Last-Modified")
	tests := []struct {
		name, method, path string
		fields             []string
		status             int
	}{
		{"a condition that does not hold", "PUT", "/f", []string{`If-Match: "none"`}, 412},
		{"a digest of other bytes", "PUT", "/f", []string{"Content-MD5: AAAAAAAAAAAAAAAAAAAAAA=="}, 412},
		{"a move to itself", "MOVE", "/f", []string{"Destination: /f"}, 403},
		{"a time that is none", "PUT", "/g", []string{modifiedField + ": soon"}, 201},
	}
	for _, test := range tests {
		t.Run(test.name, func(t *testing.T) {
			c := client{t: t, server: c.server}
			fields := append([]string{modifiedField + ": 1000000000"}, test.fields...)
			response, _ := c.do(test.method, test.path, strings.NewReader(""), fields...)
			if got := response.Header.Get(modifiedField); response.StatusCode != test.status || got != "" {
				t.Errorf("status %d and %q, want %d and none", response.StatusCode, got, test.status)
			}
		})
	}
	response, _ = c.do("GET", "/f", nil)
	if got := response.Header.Get("Last-Modified"); got != before {
		t.Errorf("Last-Modified is %q, want %q", got, before)
	}
}
