package limit

import (
	"crypto/ecdsa"
	"crypto/elliptic"
	"crypto/rand"
	"crypto/tls"
	"crypto/x509"
	"fmt"
	"math/big"
	"net"
	"testing"
	"time"

	"davserve/internal/share"
)

// newTestHandshakes returns bounds of ten a second for a client, and a clock that a test sets.
func newTestHandshakes() (*Handshakes, *time.Time) {
	now := time.Now()
	h := NewHandshakes(10, func(net.Conn) (share.Key, bool) { return "one", false })
	h.now = func() time.Time { return now }
	return h, &now
}

func TestTakeAHandshake(t *testing.T) {
	h, now := newTestHandshakes()
	for i := 0; i < handshakesAhead; i++ {
		if wait, err := h.take("one"); wait > 0 || err != nil {
			t.Fatalf("handshake %d waits for %v, %v", i, wait, err)
		}
	}
	const late = int(handshakePatience / (time.Second / 10)) // so many wait
	for i := 1; i <= late; i++ {
		want := time.Duration(i) * time.Second / 10
		if wait, err := h.take("one"); wait != want || err != nil {
			t.Fatalf("handshake %d waits for %v, %v, want %v", handshakesAhead+i, wait, err, want)
		}
	}
	for i := 0; i < 1000; i++ {
		if wait, err := h.take("one"); err != errHandshakes || wait != handshakePatience {
			t.Fatalf("one more waits for %v, %v", wait, err)
		}
	}
	if wait, err := h.take("another"); wait > 0 || err != nil {
		t.Errorf("one of another client waits for %v, %v", wait, err)
	}
	*now = now.Add(time.Second)
	count := 0
	for ; count < 100; count++ {
		if _, err := h.take("one"); err != nil {
			break
		}
	}
	if count != 10 {
		t.Errorf("after a second there are %d more", count)
	}
	*now = now.Add(time.Minute)
	for i := 0; i < handshakesAhead; i++ {
		if wait, err := h.take("one"); wait > 0 || err != nil {
			t.Fatalf("after a minute handshake %d waits for %v, %v", i, wait, err)
		}
	}
	if wait, _ := h.take("one"); wait != time.Second/10 {
		t.Errorf("a minute without one counts more than %d: the next waits for %v", handshakesAhead, wait)
	}
}

func TestHandshakesOfManyClients(t *testing.T) {
	h, now := newTestHandshakes()
	for i := 0; i < 2*handshakeClients+9; i++ {
		if wait, err := h.take(share.Key(fmt.Sprint(i))); wait > 0 || err != nil {
			t.Fatalf("the handshake of client %d waits for %v, %v", i, wait, err)
		}
		if n := len(h.next); n > handshakeClients {
			t.Fatalf("%d clients are known", n)
		}
	}
	for i := 0; i < handshakesAhead+20; i++ {
		h.take("one")
	}
	*now = now.Add(time.Second)
	h.forget(*now)
	if wait, _ := h.take("one"); wait != 1100*time.Millisecond {
		t.Errorf("a client with many is forgotten: the next waits for %v", wait)
	}
	if n := len(h.next); n != 1 {
		t.Errorf("%d clients are known", n)
	}
}

// Of a client that begins many connections the first hundred are served at once, and the others by their rate.
func TestHandshakesOfAServer(t *testing.T) {
	const rate, late = 50, 25
	isProxy := false
	h := NewHandshakes(rate, func(net.Conn) (share.Key, bool) { return "one", isProxy })
	h.patience = late * time.Second / rate
	config := &tls.Config{Certificates: []tls.Certificate{newCertificate(t)}, GetConfigForClient: h.Await}
	shake := func() error {
		there, here := net.Pipe()
		defer here.Close()
		go tls.Client(here, &tls.Config{InsecureSkipVerify: true}).Handshake()
		return tls.Server(there, config).Handshake()
	}
	began := time.Now()
	for i := 0; i < handshakesAhead+late; i++ {
		if err := shake(); err != nil {
			t.Fatal(err)
		}
	}
	if took := time.Since(began); took < (late-1)*time.Second/rate {
		t.Errorf("%d handshakes took %v", handshakesAhead+late, took)
	}
	for err := error(nil); err == nil; _, err = h.take("one") {
	}
	began = time.Now()
	if err := shake(); err != errHandshakes || time.Since(began) < h.patience {
		t.Errorf("a handshake for which no turn is left: %v after %v", err, time.Since(began))
	}
	isProxy = true
	if err := shake(); err != nil {
		t.Errorf("one of a proxy: %v", err)
	}
}

// newCertificate returns a certificate for a test.
func newCertificate(t *testing.T) tls.Certificate {
	t.Helper()
	key, err := ecdsa.GenerateKey(elliptic.P256(), rand.Reader)
	if err != nil {
		t.Fatal(err)
	}
	template := &x509.Certificate{SerialNumber: big.NewInt(1), NotAfter: time.Now().Add(time.Hour)}
	signed, err := x509.CreateCertificate(rand.Reader, template, template, key.Public(), key)
	if err != nil {
		t.Fatal(err)
	}
	return tls.Certificate{Certificate: [][]byte{signed}, PrivateKey: key}
}
