package cors

import (
	"net/http"
	"net/http/httptest"
	"strings"
	"testing"
)

const app = "https://app.example"

// below answers as an authenticated WebDAV handler would.
func below(w http.ResponseWriter, r *http.Request) {
	w.Header().Add("Vary", "Accept")
	w.Header().Set("WWW-Authenticate", `Basic realm="dav"`)
	w.WriteHeader(http.StatusUnauthorized)
}

func serve(t *testing.T, method string, fields http.Header) *http.Response {
	t.Helper()
	h, err := New([]string{app, "http://localhost:3000"}, http.HandlerFunc(below))
	if err != nil {
		t.Fatal(err)
	}
	r := httptest.NewRequest(method, "/dav/a", nil)
	r.Header = fields
	w := httptest.NewRecorder()
	h.ServeHTTP(w, r)
	return w.Result()
}

// has reports whether a comma-separated header field has each of the items, in any case.
func has(value string, items ...string) bool {
	in := make(map[string]bool)
	for _, item := range strings.Split(value, ",") {
		in[strings.ToLower(strings.TrimSpace(item))] = true
	}
	for _, item := range items {
		if !in[strings.ToLower(item)] {
			return false
		}
	}
	return true
}

func TestPreflight(t *testing.T) {
	response := serve(t, "OPTIONS", http.Header{
		"Origin":                         {app},
		"Access-Control-Request-Method":  {"PROPFIND"},
		"Access-Control-Request-Headers": {"authorization,depth,x-strange"},
	})
	if response.StatusCode != http.StatusNoContent {
		t.Errorf("status %d", response.StatusCode)
	}
	exact := map[string]string{
		"Access-Control-Allow-Origin":      app,
		"Access-Control-Allow-Credentials": "true",
		"Access-Control-Max-Age":           "600",
		"Access-Control-Expose-Headers":    "",
		"Vary":                             "Origin",
		"Www-Authenticate":                 "",
	}
	for name, want := range exact {
		if got := strings.Join(response.Header.Values(name), ", "); got != want {
			t.Errorf("%s: %q, want %q", name, got, want)
		}
	}
	// The methods and header fields of RFC 4918, and those of RFC 9110 that clients send.
	if v := response.Header.Get("Access-Control-Allow-Methods"); !has(v, "GET", "HEAD", "PUT", "DELETE", "OPTIONS",
		"PROPFIND", "PROPPATCH", "MKCOL", "COPY", "MOVE", "LOCK", "UNLOCK") || has(v, "*") {
		t.Errorf("methods %q", v)
	}
	if v := response.Header.Get("Access-Control-Allow-Headers"); !has(v, "Depth", "Destination", "If", "Lock-Token",
		"Overwrite", "Timeout", "Authorization", "Content-Type", "Range", "If-Match", "If-None-Match", "If-Range",
		"If-Modified-Since", "If-Unmodified-Since") || has(v, "*") || has(v, "X-Strange") {
		t.Errorf("header fields %q", v)
	}
}

func TestActual(t *testing.T) {
	for _, method := range []string{"GET", "PROPFIND", "OPTIONS"} {
		fields := http.Header{"Origin": {app}}
		if method != "OPTIONS" {
			fields.Set("Access-Control-Request-Method", "PUT") // means nothing here
		}
		response := serve(t, method, fields)
		if response.StatusCode != http.StatusUnauthorized {
			t.Errorf("%s: status %d", method, response.StatusCode)
		}
		exact := map[string]string{
			"Access-Control-Allow-Origin":      app,
			"Access-Control-Allow-Credentials": "true",
			"Access-Control-Allow-Methods":     "",
			"Access-Control-Allow-Headers":     "",
			"Vary":                             "Origin, Accept",
		}
		for name, want := range exact {
			if got := strings.Join(response.Header.Values(name), ", "); got != want {
				t.Errorf("%s: %s: %q, want %q", method, name, got, want)
			}
		}
		if v := response.Header.Get("Access-Control-Expose-Headers"); !has(v, "DAV", "ETag", "Lock-Token", "Location",
			"Allow", "Content-Location", "Last-Modified", "WWW-Authenticate") || has(v, "*") {
			t.Errorf("%s: exposed %q", method, v)
		}
	}
}

func TestOtherOrigins(t *testing.T) {
	tests := []struct {
		name   string
		origin []string
	}{
		{"none", nil},
		{"null", []string{"null"}},
		{"empty", []string{""}},
		{"another", []string{"https://evil.example"}},
		{"another scheme", []string{"http://app.example"}},
		{"another port", []string{"https://app.example:8443"}},
		{"default port", []string{"https://app.example:443"}},
		{"trailing slash", []string{app + "/"}},
		{"upper case", []string{"https://APP.example"}},
		{"longer", []string{app + ".evil.example"}},
		{"prefix", []string{"https://evil-app.example"}},
		{"two", []string{app, app}},
		{"list", []string{app + ", https://evil.example"}},
	}
	for _, test := range tests {
		for _, method := range []string{"GET", "OPTIONS"} {
			fields := http.Header{"Access-Control-Request-Method": {"PUT"}}
			if test.origin != nil {
				fields["Origin"] = test.origin
			}
			response := serve(t, method, fields)
			if response.StatusCode != http.StatusUnauthorized {
				t.Errorf("%s, %s: status %d", test.name, method, response.StatusCode)
			}
			for name := range response.Header {
				if strings.HasPrefix(name, "Access-Control-") {
					t.Errorf("%s, %s: %s", test.name, method, name)
				}
			}
			if !has(response.Header.Values("Vary")[0], "Origin") {
				t.Errorf("%s, %s: Vary %q", test.name, method, response.Header.Values("Vary"))
			}
		}
	}
}

func TestNew(t *testing.T) {
	tests := []struct {
		origin string
		ok     bool
	}{
		{"https://app.example", true},
		{"http://localhost:3000", true},
		{"https://app.example:8443", true},
		{"http://app.example:443", true},
		{"http://192.0.2.1", true},
		{"http://[2001:db8::1]:8080", true},
		{"https://xn--bcher-kva.example", true},
		{"app://obsidian.md", true},
		{"", false},
		{"null", false},
		{"*", false},
		{"app.example", false},
		{"//app.example", false},
		{"https://", false},
		{"https:app.example", false},
		{"https://app.example/", false},
		{"https://app.example/path", false},
		{"https://app.example?q", false},
		{"https://app.example#f", false},
		{"https://user@app.example", false},
		{"https://app.example:443", false},
		{"http://app.example:80", false},
		{"https://app.example:", false},
		{"https://:8443", false},
		{"https://App.example", false},
		{"HTTPS://app.example", false},
		{"https://*.example", false},
		{"https://b\u00fccher.example", false},
		{"https://app.example,https://b.example", false},
		{"https://app.example https://b.example", false},
		{"https://app.example\n", false},
	}
	for _, test := range tests {
		if _, err := New([]string{app, test.origin}, http.NotFoundHandler()); (err == nil) != test.ok {
			t.Errorf("New(%q): %v", test.origin, err)
		}
	}
}

func TestNoOrigins(t *testing.T) {
	h, err := New(nil, http.HandlerFunc(below))
	if err != nil {
		t.Fatal(err)
	}
	r := httptest.NewRequest("OPTIONS", "/", nil)
	r.Header.Set("Origin", app)
	r.Header.Set("Access-Control-Request-Method", "PUT")
	w := httptest.NewRecorder()
	h.ServeHTTP(w, r)
	if w.Code != http.StatusUnauthorized || w.Header().Get("Vary") != "Accept" {
		t.Errorf("status %d, header %v", w.Code, w.Header())
	}
}
