package davserve

import (
	"errors"
	"net/http"
	"net/http/httptest"
	"regexp"
	"testing"
	"time"
)

func TestCappedTimeout(t *testing.T) {
	tests := []struct{ asked, want string }{
		{"", "Second-600"},
		{"Infinite", "Second-600"},
		{"Second-60", "Second-60"},
		{"second-60", "Second-60"},
		{"Second-4100000000", "Second-600"},
		{"Infinite, Second-60", "Second-600"},
		{"Second-60, Infinite", "Second-60"},
		{"Extend-9, Second-5", "Second-5"},
		{"Second-x, Second-7", "Second-7"},
		{"Second--1", "Second-600"},
		{"60", "Second-600"},
		{"Second-99999999999999999999", "Second-600"},
	}
	for _, test := range tests {
		if got := cappedTimeout(test.asked, 10*time.Minute); got != test.want {
			t.Errorf("cappedTimeout(%q) = %q, want %q", test.asked, got, test.want)
		}
	}
}

func TestRangeFor(t *testing.T) {
	tests := []struct{ wanted, want string }{
		{"bytes=0-1", "bytes=0-1"},
		{"Bytes=-5", "bytes=-5"},
		{"bytes=-0", "bytes=10-"},
		{"bytes=-0, -00", "bytes=10-"},
		{"bytes=-0,2-3", "bytes=2-3"},
		{"bytes=-10", "bytes=-10"},
		{"bytes=-", "bytes=-"},
		{"bytes=0-", "bytes=0-"},
		{"lines=1-2", ""},
		{"bytes", "bytes="},
	}
	for _, test := range tests {
		if got := rangeFor(test.wanted, 10); got != test.want {
			t.Errorf("rangeFor(%q) = %q, want %q", test.wanted, got, test.want)
		}
	}
}

func TestCheckDestination(t *testing.T) {
	tests := []struct {
		destination, host, public string
		want                      error
	}{
		{"", "h", "", nil},
		{"/a", "h", "", nil},
		{"http://h/a", "h", "", nil},
		{"http://H:80/a", "h", "", nil},
		{"https://h/a", "h:443", "", nil},
		{"http://h:8080/a", "h:8080", "", nil},
		{"http://u:p@h/a", "h", "", nil},
		{"http://h:8080/a", "h", "", statusError(502)},
		{"http://other/a", "h", "", statusError(502)},
		{"http://dav.example/a", "127.0.0.1:8080", "dav.example", nil},
		{"http://127.0.0.1:8080/a", "127.0.0.1:8080", "dav.example", nil},
		{"http://other/a", "127.0.0.1:8080", "dav.example", statusError(502)},
		{"//h/a", "h", "", statusError(400)},
		{"a", "h", "", statusError(400)},
		{"http:h/a", "h", "", statusError(400)},
		{"http:///a", "h", "", statusError(400)},
		{"http://h/%zz", "h", "", statusError(400)},
	}
	for _, test := range tests {
		h := &Handler{host: test.public}
		r := httptest.NewRequest("COPY", "http://"+test.host+"/b", nil)
		r.Header.Set("Destination", test.destination)
		if got := h.checkDestination(r); !errors.Is(got, test.want) {
			t.Errorf("%q on %q: %v, want %v", test.destination, test.host, got, test.want)
		}
	}
}

func TestSegments(t *testing.T) {
	for text, want := range map[string]int{
		"": 0, "/": 0, "//": 0, "/a": 1, "/a/": 1, "/a/b": 2, "/a//b": 2, "/a%2fb": 1, `/a\b`: 2,
		"http://host": 0, "http://host/": 0, "http://host/a/b": 2, "http://host:80/a": 1, `http://host/a\b`: 2,
		"/a/b/x://../c": 5, "/a/b?://": 2, "http://host/a/x://b/c": 4,
	} {
		if got := segments(text); got != want {
			t.Errorf("%q has %d segments, not %d", text, got, want)
		}
	}
}

func TestPathsHaveABound(t *testing.T) {
	h := &Handler{options: Options{MaxSegments: 3}}
	for _, test := range []struct {
		path, destination string
		want              error
	}{
		{"/a/b/c", "", nil},
		{"/a/b/c/", "/x/y/z/", nil},
		{"/a/b/c/d", "", statusError(http.StatusRequestURITooLong)},
		{"/a", "/x/y/z/w", statusError(http.StatusRequestURITooLong)},
		{"/a", "http://h/x/y/z", nil},
		{"/a", "http://h/x/y/z/w", statusError(http.StatusRequestURITooLong)},
	} {
		r := httptest.NewRequest("MOVE", test.path, nil)
		r.Header.Set("Destination", test.destination)
		if got := h.checkSegments(r); got != test.want {
			t.Errorf("%s to %q: %v, not %v", test.path, test.destination, got, test.want)
		}
	}
}

func TestIsBelowPrefix(t *testing.T) {
	tests := []struct {
		prefix, path string
		want         bool
	}{
		{"", "/", true},
		{"", "/a", true},
		{"/dav", "/dav", true},
		{"/dav", "/dav/", true},
		{"/dav", "/dav/a", true},
		{"/dav", "/davx", false},
		{"/dav", "/", false},
		{"/dav", "", false},
		{"/dav", "/dav/../a", false},
		{"/dav", "/dav/../dav/a", true},
		{"/dav", "/a/../dav", true},
	}
	for _, test := range tests {
		h := &Handler{options: Options{Prefix: test.prefix}}
		if got := h.isBelowPrefix(test.path); got != test.want {
			t.Errorf("%q below %q: %v", test.path, test.prefix, got)
		}
	}
}

func TestPathOfKeepsEscapes(t *testing.T) {
	for _, path := range []string{"/", "/a%20b", "/a%2Fb", "/%25", "/a+b", "/%E4%BD%A0", "/d/", "//a"} {
		r := httptest.NewRequest(http.MethodGet, "http://h"+path, nil)
		if got := pathOf(r); got != path {
			t.Errorf("pathOf(%q) = %q", path, got)
		}
	}
}

func TestNewToken(t *testing.T) {
	shape := regexp.MustCompile(`^urn:uuid:[0-9a-f]{8}-[0-9a-f]{4}-4[0-9a-f]{3}-[89ab][0-9a-f]{3}-[0-9a-f]{12}$`)
	seen := map[string]bool{}
	for i := 0; i < 100; i++ {
		token, err := newToken()
		if err != nil {
			t.Fatal(err)
		}
		if !shape.MatchString(token) || seen[token] {
			t.Fatalf("newToken() = %q", token)
		}
		seen[token] = true
	}
}

func TestPublicHost(t *testing.T) {
	tests := []struct {
		url, prefix, want string
		wrong             bool
	}{
		{"", "", "", false},
		{"https://dav.example", "", "dav.example", false},
		{"https://dav.example:443/", "", "dav.example", false},
		{"https://DAV.example:8443/dav/", "/dav", "dav.example:8443", false},
		{"https://dav.example/other", "/dav", "", true},
		{"ftp://dav.example/", "", "", true},
		{"dav.example", "", "", true},
		{"http://%zz/", "", "", true},
	}
	for _, test := range tests {
		got, err := publicHost(test.url, test.prefix)
		if got != test.want || (err != nil) != test.wrong {
			t.Errorf("publicHost(%q, %q) = %q, %v", test.url, test.prefix, got, err)
		}
	}
}

func TestServedCorrectsTheMethods(t *testing.T) {
	tests := []struct{ engine, path, want string }{
		{"OPTIONS,MKCOL,PUT,LOCK", "/a", "OPTIONS, MKCOL, PUT, LOCK"},
		{"OPTIONS,MKCOL,PUT,LOCK", "/a/", "OPTIONS, MKCOL, LOCK"},
		{"OPTIONS,PROPFIND,COPY", "/", "OPTIONS, PROPFIND, COPY, GET, HEAD, PROPPATCH"},
		{"HEAD,GET,PUT,OPTIONS,PROPFIND", "/a", "HEAD, GET, PUT, OPTIONS, PROPFIND, PROPPATCH"},
	}
	for _, test := range tests {
		if got := served(test.engine, test.path); got != test.want {
			t.Errorf("served(%q, %q) = %q, want %q", test.engine, test.path, got, test.want)
		}
	}
}

func TestCheckPrefix(t *testing.T) {
	for _, prefix := range []string{"", "/dav", "/a/b", "/a-b_c.d~"} {
		if err := checkPrefix(prefix); err != nil {
			t.Errorf("%q: %v", prefix, err)
		}
	}
	for _, prefix := range []string{"/", "dav", "/dav/", "/a//b", "/a/../b", "/a b", "/a%20b", "/a?b", "/ä"} {
		if checkPrefix(prefix) == nil {
			t.Errorf("%q is accepted", prefix)
		}
	}
}
