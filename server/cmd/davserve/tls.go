package main

import (
	"crypto/tls"
	"fmt"
	"log"
	"net"
	"os"
	"time"
)

// selfSignedTime is how long a certificate that is made at a start is valid.
const selfSignedTime = 365 * 24 * time.Hour

// hasTLS reports whether the server speaks TLS.
func (c *config) hasTLS() bool { return c.cert != "" || c.selfSigned }

// tlsConfig returns how TLS is spoken, or nil if it is not.
func (c *config) tlsConfig(logger *log.Logger) (*tls.Config, error) {
	if !c.hasTLS() {
		return nil, nil
	}
	certificate, err := c.certificate(logger)
	if err != nil {
		return nil, fmt.Errorf("the certificate: %w", err)
	}
	return &tls.Config{
		MinVersion:   tls.VersionTLS12, // RFC 8996
		Certificates: []tls.Certificate{certificate},
	}, nil
}

// certificate reads the certificate, or makes one.
func (c *config) certificate(logger *log.Logger) (tls.Certificate, error) {
	if !c.selfSigned {
		return tls.LoadX509KeyPair(c.cert, c.key)
	}
	certificate, err := selfSigned(hostsOf(c.listen), time.Now())
	if err != nil {
		return certificate, err
	}
	logger.Printf("the certificate is made for this start, and nobody else has signed it. Its SHA-256 fingerprint: %s",
		fingerprint(certificate.Certificate[0]))
	return certificate, nil
}

// hostsOf returns the names and addresses under which clients may reach a listener.
func hostsOf(listen string) []string {
	hosts := []string{"localhost", "127.0.0.1", "::1"}
	if name, err := os.Hostname(); err == nil {
		hosts = append(hosts, name)
	}
	host, _, err := net.SplitHostPort(listen)
	if err == nil && host != "" && !net.ParseIP(host).IsUnspecified() {
		hosts = append(hosts, host)
	}
	return hosts
}

// selfSigned returns a certificate for these names and addresses that its own key has signed. The key is in memory only.
func selfSigned(hosts []string, now time.Time) (tls.Certificate, error) {
	key, err := newKey()
	if err != nil {
		return tls.Certificate{}, err
	}
	signed, err := signedByItself(key, hosts, now, selfSignedTime)
	if err != nil {
		return tls.Certificate{}, err
	}
	return tls.Certificate{Certificate: [][]byte{signed}, PrivateKey: key}, nil
}
