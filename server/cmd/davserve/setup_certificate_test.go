package main

import (
	"bytes"
	"os"
	"path/filepath"
	"strings"
	"testing"
	"time"
)

// writeCertificate writes what a plan makes.
func writeCertificate(t *testing.T, own ownCertificate, cert, key string) {
	t.Helper()
	for file, text := range map[string][]byte{cert: own.cert, key: own.key} {
		if text == nil {
			continue
		}
		if err := os.WriteFile(file, text, 0o600); err != nil {
			t.Fatal(err)
		}
	}
}

func TestACertificateIsMadeOnce(t *testing.T) {
	folder, now := t.TempDir(), time.Now()
	cert, key := filepath.Join(folder, "cert.pem"), filepath.Join(folder, "key.pem")
	first, err := planCertificate(cert, key, []string{"dav.example", "192.0.2.1"}, now)
	if err != nil || first.cert == nil || first.key == nil {
		t.Fatalf("%+v, %v", first, err)
	}
	if found, _ := os.ReadDir(folder); len(found) != 0 {
		t.Fatalf("a plan has written %v", found)
	}
	writeCertificate(t, first, cert, key)
	again, err := planCertificate(cert, key, []string{"other.example"}, now)
	if err != nil || again.cert != nil || again.key != nil || !bytes.Equal(again.parsed.Raw, first.parsed.Raw) {
		t.Fatalf("the second time: %+v, %v", again, err)
	}
	if err := os.Remove(cert); err != nil {
		t.Fatal(err)
	}
	renewed, err := planCertificate(cert, key, []string{"dav.example"}, now)
	if err != nil || renewed.cert == nil || renewed.key != nil || bytes.Equal(renewed.parsed.Raw, first.parsed.Raw) {
		t.Fatalf("without the certificate: %+v, %v", renewed, err)
	}
	writeCertificate(t, renewed, cert, key)
	if _, err := loadCertificate(cert, key); err != nil {
		t.Error(err)
	}
}

func TestACertificateIsForItsHostsAndTime(t *testing.T) {
	now := time.Now()
	own, err := planCertificate("/no/such/cert", "/no/such/key", certificateHosts([]string{"dav.example", "192.0.2.1"}), now)
	if err != nil {
		t.Fatal(err)
	}
	if days := own.parsed.NotAfter.Sub(own.parsed.NotBefore).Hours() / 24; days < 800 || days >= 825 {
		t.Errorf("it is valid for %f days", days)
	}
	tests := []struct {
		hosts string
		at    time.Time
		says  string
	}{
		{"", now, ""},
		{"dav.example 192.0.2.1 localhost 127.0.0.1 ::1", now, ""},
		{"dav.example www.example", now, "it is not for www.example"},
		{"192.0.2.2", now, "it is not for 192.0.2.2"},
		{"dav.example", now.AddDate(0, 0, 823), ""},
		{"dav.example", now.AddDate(0, 0, 825), "it has expired"},
	}
	for _, test := range tests {
		if got := own.wrong(strings.Fields(test.hosts), test.at); got != test.says {
			t.Errorf("%s at %v: %q, want %q", test.hosts, test.at, got, test.says)
		}
	}
}

func TestCertificatesThatCannotBe(t *testing.T) {
	folder := t.TempDir()
	cert, key, none := filepath.Join(folder, "cert.pem"), filepath.Join(folder, "key.pem"), filepath.Join(folder, "none")
	for _, file := range []string{cert, key} {
		if err := os.WriteFile(file, []byte("no PEM"), 0o600); err != nil {
			t.Fatal(err)
		}
	}
	tests := []struct{ name, cert, key, says string }{
		{"a certificate without a key", cert, none, "no such file"},
		{"files with something else", cert, key, "cert.pem"},
		{"a key that is none", none, key, "key.pem: it is no key in PEM"},
		{"a folder", folder, key, "is a directory"},
	}
	for _, test := range tests {
		if _, err := planCertificate(test.cert, test.key, nil, time.Now()); err == nil || !strings.Contains(err.Error(), test.says) {
			t.Errorf("%s: %v, want an error with %q", test.name, err, test.says)
		}
	}
}

func TestCertificateHosts(t *testing.T) {
	got := strings.Join(certificateHosts([]string{"dav.example", "127.0.0.1", "dav.example"}), " ")
	if want := "dav.example 127.0.0.1 localhost ::1"; got != want {
		t.Errorf("%s, want %s", got, want)
	}
	of := strings.Join(certificateHosts(nil), " ")
	if !strings.Contains(of, "localhost") || !strings.Contains(of, "::1") || strings.Contains(of, "fe80") {
		t.Errorf("of this machine: %s", of)
	}
}

func TestCheckHost(t *testing.T) {
	for host, isGood := range map[string]bool{
		"dav.example": true, "box": true, "a_b.example": true, "192.0.2.1": true, "2001:db8::1": true, "xn--bcher-kva.example": true,
		"": false, "a b": false, "https://dav.example": false, "dav.example:8443": false, "bücher.example": false, ".example": false,
	} {
		if err := checkHost(host); (err == nil) != isGood {
			t.Errorf("%q: %v", host, err)
		}
	}
}
