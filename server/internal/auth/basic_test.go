package auth

import (
	"encoding/base64"
	"net/http"
	"net/http/httptest"
	"path/filepath"
	"strings"
	"sync"
	"testing"
	"time"
	"unicode"
	"unicode/utf8"

	"golang.org/x/crypto/bcrypt"
)

// A fixture is a Basic with a false clock that counts its checks.
type fixture struct {
	*Basic
	clock *fakeClock
	path  string
	next  http.Handler

	mu     sync.Mutex
	hashes []string // of the checks so far
}

// newFixture returns a Basic with the lines of a file.
func newFixture(t testing.TB, maxDelayed int, lines ...string) *fixture {
	t.Helper()
	f := &fixture{clock: newFakeClock(), path: filepath.Join(t.TempDir(), "users")}
	f.write(t, lines...)
	users, err := load(f.path, f.clock.now)
	if err != nil {
		t.Fatal(err)
	}
	f.Basic, err = newBasic(users, "dav", maxDelayed, clock{now: f.clock.now, sleep: f.clock.sleep})
	if err != nil {
		t.Fatal(err)
	}
	f.compare = func(hash, password []byte) error {
		f.mu.Lock()
		f.hashes = append(f.hashes, string(hash))
		f.mu.Unlock()
		return bcrypt.CompareHashAndPassword(hash, password)
	}
	f.next = f.Handler(http.HandlerFunc(func(w http.ResponseWriter, r *http.Request) {
		name, ok := User(r.Context())
		if !ok || r.Header.Get("Authorization") != "" {
			t.Errorf("user %q, %v, Authorization %q", name, ok, r.Header.Get("Authorization"))
		}
		w.Header().Set("User", name)
	}))
	return f
}

// write replaces the file.
func (f *fixture) write(t testing.TB, lines ...string) {
	t.Helper()
	if err := writeFile(f.path, strings.Join(lines, "\n"), f.clock.now()); err != nil {
		t.Fatal(err)
	}
}

// checks returns how many passwords were checked since the last call.
func (f *fixture) checks() int {
	f.mu.Lock()
	defer f.mu.Unlock()
	n := len(f.hashes)
	f.hashes = nil
	return n
}

// request returns a request with credentials.
func request(address, name, password string) *http.Request {
	r := httptest.NewRequest("GET", "/", nil)
	r.RemoteAddr = address
	r.SetBasicAuth(name, password)
	return r
}

// serve returns the response to a request.
func (f *fixture) serve(r *http.Request) *httptest.ResponseRecorder {
	w := httptest.NewRecorder()
	f.next.ServeHTTP(w, r)
	return w
}

// try returns the status of a request with credentials.
func (f *fixture) try(address, name, password string) int {
	return f.serve(request(address, name, password)).Code
}

const home = "192.0.2.1:1234"

// entry returns a line of a file.
func entry(name, hash string) string {
	return name + ":" + hash
}

func TestBasic(t *testing.T) {
	f := newFixture(t, 64,
		entry("alice", hashOfUxU),
		entry("bob", "$2b"+hashOfUxUx[3:]),
		entry("J\u00fcrgen", "$2y"+hashOfUxUx[3:]),
		entry("empty", hashOfEmpty),
		entry("long", hashOfLong),
	)
	tests := []struct {
		name, password string
		want           int
	}{
		{"alice", "U*U", 200},
		{"bob", "U*U*", 200},
		{"J\u00fcrgen", "U*U*", 200},
		{"empty", "", 200},
		{"long", long + "chars after 72 are ignored", 200},
		{"long", long, 200},
		{"long", long[:71], 401},
		{"alice", "U*U*", 401},
		{"alice", "u*u", 401},
		{"alice", "", 401},
		{"alice", "U*U\n", 401},
		{"alice", "U*U\x00", 401},
		{"Alice", "U*U", 401},
		{"alice ", "U*U", 401},
		{"bob", "U*U", 401},
		{"Ju\u0308rgen", "U*U*", 401},
		{"nobody", "U*U", 401},
		{"", "", 401},
		{"", "U*U", 401},
	}
	for _, test := range tests {
		r := request(home, test.name, test.password)
		w := f.serve(r)
		if w.Code != test.want {
			t.Errorf("%q, %q: status %d, want %d", test.name, test.password, w.Code, test.want)
		}
		if r.Header.Get("Authorization") == "" {
			t.Errorf("%q, %q: the request of the caller has changed", test.name, test.password)
		}
		user, challenge := w.Header().Get("User"), w.Header().Get("WWW-Authenticate")
		if test.want == 200 && (user != test.name || challenge != "") {
			t.Errorf("%q, %q: user %q, challenge %q", test.name, test.password, user, challenge)
		}
		if test.want == 401 && (user != "" || challenge != `Basic realm="dav", charset="UTF-8"`) {
			t.Errorf("%q, %q: user %q, challenge %q", test.name, test.password, user, challenge)
		}
	}
}

func TestNoCredentials(t *testing.T) {
	right := "Basic " + base64.StdEncoding.EncodeToString([]byte("alice:U*U"))
	tests := []struct {
		name   string
		values []string
		want   int
	}{
		{"none", nil, 401},
		{"empty", []string{""}, 401},
		{"no token", []string{"Basic"}, 401},
		{"another scheme", []string{"Bearer YWxpY2U6VSpV"}, 401},
		{"not base64", []string{"Basic alice:U*U"}, 401},
		{"twice", []string{right, right}, 400},
		{"twice, one empty", []string{right, ""}, 400},
		{"right", []string{right}, 200},
	}
	for _, test := range tests {
		f := newFixture(t, 64, entry("alice", hashOfUxU))
		for i := 0; i < 10; i++ {
			r := httptest.NewRequest("GET", "/", nil)
			if test.values != nil {
				r.Header["Authorization"] = test.values
			}
			w := f.serve(r)
			if w.Code != test.want {
				t.Errorf("%s: status %d, want %d", test.name, w.Code, test.want)
			}
			if challenge := w.Header().Get("WWW-Authenticate"); (challenge != "") != (test.want == 401) {
				t.Errorf("%s: challenge %q", test.name, challenge)
			}
		}
		if n := f.checks(); test.want != 200 && n != 0 {
			t.Errorf("%s: %d checks", test.name, n)
		}
		if f.delays.order.Len() != 0 || len(f.clock.slept) != 0 {
			t.Errorf("%s: counts as a failure", test.name)
		}
	}
}

func TestParseBasic(t *testing.T) {
	encode := func(s string) string { return base64.StdEncoding.EncodeToString([]byte(s)) }
	tests := []struct {
		value, name, password string
		ok                    bool
	}{
		{"Basic QWxhZGRpbjpvcGVuIHNlc2FtZQ==", "Aladdin", "open sesame", true}, // RFC 7617, section 2
		{"Basic dGVzdDoxMjPCow==", "test", "123\u00a3", true},                  // RFC 7617, section 2.1
		{"basic dGVzdDoxMjPCow==", "test", "123\u00a3", true},
		{"BASIC   dGVzdDoxMjPCow==", "test", "123\u00a3", true},
		{"Basic " + encode("a:b:c:"), "a", "b:c:", true},
		{"Basic " + encode("a:"), "a", "", true},
		{"Basic dGVzdDoxMjPCow", "", "", false},
		{"Basic dGVzdDoxMjPCox==", "", "", false}, // bits after the last byte
		{"Basic dGVzdDox\nMjPCow==", "", "", false},
		{"Basic\tdGVzdDoxMjPCow==", "", "", false},
		{"Basic dGVzdDoxMjPCow==, Basic dGVzdDoxMjPCow==", "", "", false},
		{"Basic realm=\"x\"", "", "", false},
		{"Basic ", "", "", false},
		{"BasicdGVzdDoxMjPCow==", "", "", false},
		{"Digest dGVzdDoxMjPCow==", "", "", false},
		{" Basic dGVzdDoxMjPCow==", "", "", false},
		{"Basic " + encode("nocolon"), "", "", false},
		{"Basic " + encode(":b"), "", "", false},
		{"Basic " + encode("a\x00:b"), "", "", false},
		{"Basic " + encode("a:b\x7f"), "", "", false},
		{"Basic " + encode("a:b\u0080"), "", "", false},
		{"Basic " + encode("a:123\xa3"), "", "", false}, // Latin-1
		{"Basic " + encode("\xfc:b"), "", "", false},
		{"Basic " + encode(strings.Repeat("a", 256)+":b"), strings.Repeat("a", 256), "b", true},
		{"Basic " + encode(strings.Repeat("a", 257)+":b"), "", "", false},
		{"Basic " + encode("a:"+strings.Repeat("b", 3060)), "a", strings.Repeat("b", 3060), true},
		{"Basic " + encode("a:"+strings.Repeat("b", 4096)), "", "", false},
	}
	for _, test := range tests {
		name, password, ok := parseBasic(test.value)
		if name != test.name || password != test.password || ok != test.ok {
			t.Errorf("%q: %q, %q, %v", test.value, name, password, ok)
		}
	}
}

func FuzzAuthorization(f *testing.F) {
	for _, value := range []string{"", "Basic", "Basic QWxhZGRpbjpvcGVuIHNlc2FtZQ==", "basic  dGVzdDoxMjPCow==",
		"Basic Og==", "Basic YTpi\r\n", "Bearer x", "Basic /w=="} {
		f.Add(value)
	}
	f.Fuzz(func(t *testing.T, value string) {
		name, password, ok := parseBasic(value)
		if !ok {
			if name != "" || password != "" {
				t.Fatalf("%q: %q, %q without success", value, name, password)
			}
			return
		}
		for _, s := range []string{name, password} {
			if !utf8.ValidString(s) || strings.IndexFunc(s, unicode.IsControl) >= 0 {
				t.Fatalf("%q: %q", value, s)
			}
		}
		if name == "" || strings.Contains(name, ":") || len(name) > 256 {
			t.Fatalf("%q: name %q", value, name)
		}
		// The value is the scheme, spaces, and the one encoding of both.
		token := base64.StdEncoding.EncodeToString([]byte(name + ":" + password))
		scheme := strings.TrimRight(strings.TrimSuffix(value, token), " ")
		if !strings.EqualFold(scheme, "Basic") || !strings.HasSuffix(value, " "+token) {
			t.Fatalf("%q is not the encoding of %q, %q", value, name, password)
		}
	})
}

func TestNewBasic(t *testing.T) {
	tests := []struct {
		realm      string
		maxDelayed int
		challenge  string // empty: an error
	}{
		{"dav", 1, `Basic realm="dav", charset="UTF-8"`},
		{"", 64, `Basic realm="", charset="UTF-8"`},
		{`a "quoted" \ realm`, 64, `Basic realm="a \"quoted\" \\ realm", charset="UTF-8"`},
		{"a\r\nSet-Cookie: b", 64, ""},
		{"\xff", 64, ""},
		{"dav", 0, ""},
		{"dav", -1, ""},
	}
	for _, test := range tests {
		b, err := NewBasic(&Users{}, test.realm, test.maxDelayed)
		if (err == nil) != (test.challenge != "") {
			t.Errorf("%q, %d: %v", test.realm, test.maxDelayed, err)
		} else if err == nil && b.challenge != test.challenge {
			t.Errorf("%q: %s", test.realm, b.challenge)
		}
	}
}

// The system's clock and bcrypt are what a Basic uses.
func TestNewBasicServes(t *testing.T) {
	f := newFixture(t, 64, entry("alice", hashOfUxU))
	users, err := Load(f.path)
	if err != nil {
		t.Fatal(err)
	}
	b, err := NewBasic(users, "dav", 4)
	if err != nil {
		t.Fatal(err)
	}
	start := time.Now()
	for _, test := range []struct {
		password string
		want     int
	}{{"U*U", 200}, {"wrong", 401}, {"U*U", 200}, {"wrong again", 401}} {
		w := httptest.NewRecorder()
		b.Handler(http.NotFoundHandler()).ServeHTTP(w, request(home, "alice", test.password))
		if test.want == 200 {
			test.want = 404 // of the handler below
		}
		if w.Code != test.want {
			t.Errorf("%q: status %d", test.password, w.Code)
		}
	}
	if d := time.Since(start); d < firstDelay {
		t.Errorf("the second failure came after %v", d)
	}
}
