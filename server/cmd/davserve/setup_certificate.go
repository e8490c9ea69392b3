package main

import (
	"crypto/ecdsa"
	"crypto/tls"
	"crypto/x509"
	"encoding/pem"
	"errors"
	"fmt"
	"net"
	"os"
	"regexp"
	"time"
)

// ownTime is how long a certificate that davserve setup makes is valid. Clients of Apple refuse one that is valid for
// more than 825 days, also if their user trusts it.
const ownTime = 824 * 24 * time.Hour

// A hostName is a name that a certificate can be for.
var hostName = regexp.MustCompile(`^[A-Za-z0-9_]([A-Za-z0-9_.-]{0,252}[A-Za-z0-9_])?$`)

// checkHost returns an error unless a certificate can be for this name or address.
func checkHost(host string) error {
	if net.ParseIP(host) == nil && !hostName.MatchString(host) {
		return fmt.Errorf("the host %q is neither a name nor an address", host)
	}
	return nil
}

// hostsOfMachine returns the name of this machine and its addresses, without those that count only on one link.
func hostsOfMachine() (hosts []string) {
	if name, err := os.Hostname(); err == nil && checkHost(name) == nil {
		hosts = append(hosts, name)
	}
	addresses, err := net.InterfaceAddrs()
	if err != nil {
		return hosts
	}
	for _, address := range addresses {
		if network, ok := address.(*net.IPNet); ok && network.IP.IsGlobalUnicast() {
			hosts = append(hosts, network.IP.String())
		}
	}
	return hosts
}

// certificateHosts returns the names and addresses for a certificate: these, or those of this machine if there are none,
// and those by which a machine reaches itself.
func certificateHosts(hosts []string) []string {
	if len(hosts) == 0 {
		hosts = hostsOfMachine()
	}
	var all []string
	seen := map[string]bool{}
	for _, host := range append(append([]string{}, hosts...), "localhost", "127.0.0.1", "::1") {
		if !seen[host] {
			seen[host] = true
			all = append(all, host)
		}
	}
	return all
}

// An ownCertificate is a certificate that is there, or that is to be written.
type ownCertificate struct {
	parsed    *x509.Certificate
	cert, key []byte // in PEM, what is to be written; nil: it is there
}

// planCertificate reads a certificate, or makes one if there is none. It writes nothing. If there is only a key, the
// certificate is for that.
func planCertificate(certFile, keyFile string, hosts []string, now time.Time) (own ownCertificate, err error) {
	_, hasCert, err := readIfThere(certFile)
	if err != nil {
		return own, err
	}
	if hasCert {
		own.parsed, err = loadCertificate(certFile, keyFile)
		return own, err
	}
	oldKey, hasKey, err := readIfThere(keyFile)
	if err != nil {
		return own, err
	}
	var key *ecdsa.PrivateKey
	if hasKey {
		key, err = parseKey(oldKey)
		if err != nil {
			return own, fmt.Errorf("%s: %w", keyFile, err)
		}
	} else if key, own.key, err = newKeyText(); err != nil {
		return own, err
	}
	signed, err := signedByItself(key, hosts, now, ownTime)
	if err != nil {
		return own, err
	}
	own.cert = pem.EncodeToMemory(&pem.Block{Type: "CERTIFICATE", Bytes: signed})
	own.parsed, err = x509.ParseCertificate(signed)
	return own, err
}

// loadCertificate returns the certificate that a server with these files has.
func loadCertificate(certFile, keyFile string) (*x509.Certificate, error) {
	pair, err := tls.LoadX509KeyPair(certFile, keyFile)
	if err != nil {
		return nil, fmt.Errorf("the certificate %s: %w", certFile, err)
	}
	return x509.ParseCertificate(pair.Certificate[0])
}

// newKeyText returns a new key, and its text in PEM.
func newKeyText() (*ecdsa.PrivateKey, []byte, error) {
	key, err := newKey()
	if err != nil {
		return nil, nil, err
	}
	encoded, err := x509.MarshalPKCS8PrivateKey(key)
	if err != nil {
		return nil, nil, err
	}
	return key, pem.EncodeToMemory(&pem.Block{Type: "PRIVATE KEY", Bytes: encoded}), nil
}

// parseKey reads a key as newKeyText writes it.
func parseKey(text []byte) (*ecdsa.PrivateKey, error) {
	block, _ := pem.Decode(text)
	if block == nil {
		return nil, errors.New("it is no key in PEM")
	}
	parsed, err := x509.ParsePKCS8PrivateKey(block.Bytes)
	if err != nil {
		return nil, err
	}
	key, ok := parsed.(*ecdsa.PrivateKey)
	if !ok {
		return nil, errors.New("it is not a key of ECDSA")
	}
	return key, nil
}

// wrong says why clients reject a certificate, or reject it for one of these hosts. It is empty if they do not.
func (own ownCertificate) wrong(hosts []string, now time.Time) string {
	if now.After(own.parsed.NotAfter) {
		return "it has expired"
	}
	for _, host := range hosts {
		if own.parsed.VerifyHostname(host) != nil {
			return "it is not for " + host
		}
	}
	return ""
}
