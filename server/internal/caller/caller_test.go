package caller

import (
	"net/http/httptest"
	"net/netip"
	"testing"
)

func TestKey(t *testing.T) {
	tests := []struct {
		one, other string
		isSame     bool
	}{
		{"192.0.2.1:1", "192.0.2.1:2", true},
		{"192.0.2.1:1", "192.0.2.2:1", false},
		{"192.0.2.1:1", "[::ffff:192.0.2.1]:1", true},
		{"[2001:db8::1]:1", "[2001:db8::ffff:2]:1", true},
		{"[2001:db8::1]:1", "[2001:db8:0:1::1]:1", false},
		{"[fe80::1%a]:1", "[fe80::1%b]:1", true},
		{"@", "a pipe", true},
		{"@", "192.0.2.1:1", false},
	}
	for _, test := range tests {
		if isSame := Key(Parse(test.one)) == Key(Parse(test.other)); isSame != test.isSame {
			t.Errorf("%s and %s are one client: %v", test.one, test.other, isSame)
		}
	}
	if UserKey("192.0.2.1/32") == Key(netip.MustParseAddr("192.0.2.1")) {
		t.Error("a user has the key of an address")
	}
}

func TestAddress(t *testing.T) {
	proxies := Proxies{netip.MustParsePrefix("10.0.0.0/8"), netip.MustParsePrefix("::1/128")}
	tests := []struct {
		remote    string
		forwarded []string
		want      string
	}{
		{"192.0.2.1:1", nil, "192.0.2.1"},
		{"192.0.2.1:1", []string{"198.51.100.1"}, "192.0.2.1"}, // no proxy
		{"10.0.0.1:1", nil, "10.0.0.1"},
		{"10.0.0.1:1", []string{"198.51.100.1"}, "198.51.100.1"},
		{"[::1]:1", []string{"2001:db8::1"}, "2001:db8::1"},
		{"10.0.0.1:1", []string{"203.0.113.9, 198.51.100.1"}, "198.51.100.1"}, // what the client has sent, and what the proxy adds
		{"10.0.0.1:1", []string{"203.0.113.9", "198.51.100.1"}, "198.51.100.1"},
		{"10.0.0.1:1", []string{"198.51.100.1, 10.0.0.2"}, "198.51.100.1"}, // two proxies
		{"10.0.0.1:1", []string{"10.0.0.3, 10.0.0.2"}, "10.0.0.3"},
		{"10.0.0.1:1", []string{"unknown"}, "10.0.0.1"},
		{"10.0.0.1:1", []string{"198.51.100.1, unknown"}, "10.0.0.1"},
		{"10.0.0.1:1", []string{"::ffff:198.51.100.1"}, "198.51.100.1"},
	}
	for _, test := range tests {
		r := httptest.NewRequest("GET", "/", nil)
		r.RemoteAddr = test.remote
		r.Header["X-Forwarded-For"] = test.forwarded
		if got := proxies.Address(r); got != netip.MustParseAddr(test.want) {
			t.Errorf("from %s for %q: %v, want %s", test.remote, test.forwarded, got, test.want)
		}
	}
}
