package main

import (
	"net/http"
	"net/http/httptest"
	"strings"
	"testing"
)

func TestHosts(t *testing.T) {
	const local = "-host Dav.Example -host 192.0.2.7 -public-url https://files.example:8443/"
	tests := []struct {
		arguments, host string
		isServed        bool
	}{
		{"", "127.0.0.1:8080", true},
		{"", "127.9.9.9", true},
		{"", "localhost:8080", true},
		{"", "LOCALHOST.", true},
		{"", "[::1]:8080", true},
		{"", "[::1]", true},
		{"", "[::ffff:127.0.0.1]:8080", true},
		{"", "evil.example", false},
		{"", "evil.example:8080", false},
		{"", "localhost.evil.example", false},
		{"", "127.0.0.1.evil.example", false},
		{"", "192.0.2.7", false},
		{"", "", true},
		{"", "evil.example.", false},
		{local, "dav.example:80", true},
		{local, "192.0.2.7:8080", true},
		{local, "files.example", true},
		{local, "evil.example", false},
		{"-users u", "evil.example", true},
		{"-user-header X -trusted-proxy 127.0.0.1/32", "evil.example", true},
		{"-listen :8080 -anonymous", "evil.example", true},
		{"-listen [::1]:0", "evil.example", false},
		{"-anonymous", "evil.example", false},
	}
	for _, test := range tests {
		c, err := parse(strings.Fields(test.arguments), new(strings.Builder))
		if err != nil {
			t.Fatalf("%s: %v", test.arguments, err)
		}
		served, err := c.hostsServed()
		if err != nil {
			t.Fatal(err)
		}
		w, r := httptest.NewRecorder(), httptest.NewRequest("GET", "/", nil)
		r.Host = test.host
		served.handler(http.HandlerFunc(func(http.ResponseWriter, *http.Request) {})).ServeHTTP(w, r)
		want := http.StatusOK
		if !test.isServed {
			want = http.StatusMisdirectedRequest
		}
		if w.Code != want {
			t.Errorf("%q, Host %q: status %d, want %d", test.arguments, test.host, w.Code, want)
		}
		if lines := strings.Count(w.Body.String(), "\n"); !test.isServed && lines != 1 {
			t.Errorf("Host %q: %d lines", test.host, lines)
		}
	}
}
