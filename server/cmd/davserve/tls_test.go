package main

import (
	"crypto/tls"
	"crypto/x509"
	"io"
	"log"
	"strings"
	"testing"
	"time"
)

func TestSelfSigned(t *testing.T) {
	now := time.Now()
	made, err := selfSigned(hostsOf("192.0.2.1:443"), now)
	if err != nil {
		t.Fatal(err)
	}
	certificate, err := x509.ParseCertificate(made.Certificate[0])
	if err != nil {
		t.Fatal(err)
	}
	roots := x509.NewCertPool()
	roots.AddCert(certificate)
	tests := []struct {
		host string
		at   time.Time
		want bool
	}{
		{"localhost", now, true},
		{"127.0.0.1", now, true},
		{"::1", now, true},
		{"192.0.2.1", now, true},
		{"192.0.2.2", now, false},
		{"dav.example", now, false},
		{"localhost", now.Add(-30 * time.Minute), true},
		{"localhost", now.Add(-2 * time.Hour), false},
		{"localhost", now.AddDate(0, 11, 0), true},
		{"localhost", now.AddDate(1, 1, 0), false},
	}
	for _, test := range tests {
		_, err := certificate.Verify(x509.VerifyOptions{Roots: roots, DNSName: test.host, CurrentTime: test.at})
		if (err == nil) != test.want {
			t.Errorf("%s at %v: %v", test.host, test.at, err)
		}
	}
	if certificate.IsCA {
		t.Error("it may sign others")
	}
}

func TestHostsOf(t *testing.T) {
	tests := []struct {
		listen string
		want   string // the last host; empty: none of the address
	}{
		{":443", ""},
		{"0.0.0.0:443", ""},
		{"[::]:443", ""},
		{"192.0.2.1:443", "192.0.2.1"},
		{"[2001:db8::1]:443", "2001:db8::1"},
		{"dav.example:443", "dav.example"},
	}
	without := hostsOf(":443")
	for _, test := range tests {
		got := hostsOf(test.listen)
		if test.want == "" {
			if len(got) != len(without) {
				t.Errorf("%s: %q", test.listen, got)
			}
		} else if got[len(got)-1] != test.want {
			t.Errorf("%s: %q, want %s", test.listen, got, test.want)
		}
	}
}

func TestEachSelfSignedCertificateIsNew(t *testing.T) {
	c := config{selfSigned: true, listen: ":443"}
	seen := map[string]bool{}
	for i := 0; i < 2; i++ {
		var said strings.Builder
		made, err := c.tlsConfig(log.New(&said, "", 0))
		if err != nil {
			t.Fatal(err)
		}
		shown := fingerprint(made.Certificates[0].Certificate[0])
		if seen[shown] || !strings.HasSuffix(said.String(), ": "+shown+"\n") {
			t.Errorf("fingerprint %s, log %q", shown, said.String())
		}
		seen[shown] = true
	}
}

func TestTLSConfig(t *testing.T) {
	tests := []struct {
		name            string
		config          config
		hasTLS, isRight bool
	}{
		{"without TLS", config{}, false, true},
		{"made", config{selfSigned: true}, true, true},
		{"files that are not there", config{cert: "/no/such/cert", key: "/no/such/key"}, true, false},
	}
	for _, test := range tests {
		made, err := test.config.tlsConfig(log.New(io.Discard, "", 0))
		if (err == nil) != test.isRight || (made != nil) != (test.hasTLS && test.isRight) {
			t.Errorf("%s: %v, %v", test.name, made, err)
		}
		if made != nil && made.MinVersion != tls.VersionTLS12 {
			t.Errorf("%s: the least version is %x", test.name, made.MinVersion)
		}
	}
}

func TestFingerprint(t *testing.T) {
	// openssl dgst -sha256 of no bytes
	const want = "E3:B0:C4:42:98:FC:1C:14:9A:FB:F4:C8:99:6F:B9:24:27:AE:41:E4:64:9B:93:4C:A4:95:99:1B:78:52:B8:55"
	if got := fingerprint(nil); got != want {
		t.Errorf("%s, want %s", got, want)
	}
}
