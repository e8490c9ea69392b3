package auth

import (
	"net/http"
	"net/http/httptest"
	"net/netip"
	"strings"
	"testing"
)

func TestProxy(t *testing.T) {
	from := []netip.Prefix{
		netip.MustParsePrefix("192.0.2.0/28"),
		netip.MustParsePrefix("127.0.0.1/32"),
		netip.MustParsePrefix("2001:db8::/32"),
		netip.MustParsePrefix("fe80::/10"),
	}
	p, err := NewProxy("x-remote-user", from, "dav")
	if err != nil {
		t.Fatal(err)
	}
	const proxy = "192.0.2.15:443"
	longest := strings.Repeat("\u00fc", 128)
	tests := []struct {
		name, address string
		values        []string
		want          int
	}{
		{"user", proxy, []string{"alice"}, 200},
		{"UTF-8", proxy, []string{"J\u00fcrgen M\u00fcller"}, 200},
		{"longest", proxy, []string{longest}, 200},
		{"another proxy", "127.0.0.1:1", []string{"alice"}, 200},
		{"IPv6", "[2001:db8::1]:1", []string{"alice"}, 200},
		{"IPv4 in IPv6", "[::ffff:192.0.2.1]:1", []string{"alice"}, 200},
		{"zone", "[fe80::1%eth0]:1", []string{"alice"}, 200},
		{"missing", proxy, nil, 401},
		{"empty", proxy, []string{""}, 401},
		{"blank", proxy, []string{" "}, 401},
		{"repeated", proxy, []string{"alice", "alice"}, 400},
		{"repeated, empty", proxy, []string{"alice", ""}, 400},
		{"too long", proxy, []string{longest + "x"}, 400},
		{"invalid UTF-8", proxy, []string{"al\xffice"}, 400},
		{"tab", proxy, []string{"al\tice"}, 400},
		{"NUL", proxy, []string{"al\x00ice"}, 400},
		{"C1", proxy, []string{"al\u0085ice"}, 400},
		{"not the proxy", "192.0.2.16:1", []string{"alice"}, 403},
		{"not the proxy, missing", "192.0.2.16:1", nil, 403},
		{"not the proxy, repeated", "192.0.2.16:1", []string{"a", "b"}, 403},
		{"not the proxy, IPv4 in IPv6", "[::ffff:192.0.2.16]:1", []string{"alice"}, 403},
		{"no address", "", []string{"alice"}, 403},
		{"no port", "192.0.2.1", []string{"alice"}, 403},
	}
	for _, test := range tests {
		r := httptest.NewRequest("GET", "/", nil)
		r.RemoteAddr = test.address
		if test.values != nil {
			r.Header["X-Remote-User"] = test.values
		}
		r.Header.Set("X-Forwarded-For", "192.0.2.1")
		w := httptest.NewRecorder()
		p.Handler(http.HandlerFunc(func(w http.ResponseWriter, r *http.Request) {
			if name, ok := User(r.Context()); !ok || name != test.values[0] {
				t.Errorf("%s: user %q, %v", test.name, name, ok)
			}
		})).ServeHTTP(w, r)
		if w.Code != test.want {
			t.Errorf("%s: status %d, want %d", test.name, w.Code, test.want)
		}
		challenge := w.Header().Get("WWW-Authenticate")
		if (challenge == `External realm="dav"`) != (test.want == 401) {
			t.Errorf("%s: challenge %q", test.name, challenge)
		}
	}
}

func TestNewProxy(t *testing.T) {
	local := []netip.Prefix{netip.MustParsePrefix("127.0.0.1/32")}
	tests := []struct {
		name, field string
		from        []netip.Prefix
		realm       string
		ok          bool
	}{
		{"right", "X-Remote-User", local, "dav", true},
		{"lower case", "remote_user", local, "", true},
		{"no name", "", local, "dav", false},
		{"a space", "X User", local, "dav", false},
		{"a colon", "X-User:", local, "dav", false},
		{"not ASCII", "X-\u00fcser", local, "dav", false},
		{"no address", "X-Remote-User", nil, "dav", false},
		{"an invalid address", "X-Remote-User", append(local, netip.Prefix{}), "dav", false},
		{"realm", "X-Remote-User", local, "a\nb", false},
	}
	for _, test := range tests {
		if _, err := NewProxy(test.field, test.from, test.realm); (err == nil) != test.ok {
			t.Errorf("%s: %v", test.name, err)
		}
	}
}

func TestUser(t *testing.T) {
	r := httptest.NewRequest("GET", "/", nil)
	if name, ok := User(r.Context()); ok || name != "" {
		t.Errorf("user %q without authentication", name)
	}
	if name, ok := User(WithUser(r.Context(), "alice")); !ok || name != "alice" {
		t.Errorf("user %q, %v", name, ok)
	}
}
