// Package caller says who has sent a request, so that what a client may have can be limited.
package caller

import (
	"net"
	"net/http"
	"net/netip"
	"strings"

	"davserve/internal/share"
)

// Network returns the addresses that count as one client: that of IPv4, or the first 64 bits of one of IPv6, all of which
// one client has. Of an address that is not valid it is not valid either.
func Network(address netip.Addr) netip.Prefix {
	bits := address.BitLen()
	if address.Is6() {
		bits = 64
	}
	prefix, err := address.Prefix(bits)
	if err != nil {
		return netip.Prefix{}
	}
	return prefix
}

// Parse returns the address of a client in the form of net.Addr and http.Request.RemoteAddr. It is not valid if there is
// none.
func Parse(remote string) netip.Addr {
	ap, err := netip.ParseAddrPort(remote)
	if err != nil {
		return netip.Addr{}
	}
	return ap.Addr().Unmap().WithZone("")
}

// Proxies are the networks of proxies that say for whom they send a request.
type Proxies []netip.Prefix

// Has reports whether an address is that of a proxy.
func (p Proxies) Has(address netip.Addr) bool {
	for _, prefix := range p {
		if prefix.Contains(address) {
			return true
		}
	}
	return false
}

// Address returns the address of the client that has sent a request. From a proxy that is the last one in
// X-Forwarded-For that is none of a proxy. If there is none, it is the address of the proxy.
func (p Proxies) Address(r *http.Request) netip.Addr {
	address := Parse(r.RemoteAddr)
	if !p.Has(address) {
		return address
	}
	listed := strings.Split(strings.Join(r.Header["X-Forwarded-For"], ","), ",")
	for i := len(listed) - 1; i >= 0; i-- {
		next, err := netip.ParseAddr(strings.TrimSpace(listed[i]))
		if err != nil {
			return address
		}
		if address = next.Unmap().WithZone(""); !p.Has(address) {
			return address
		}
	}
	return address
}

// Key returns the key of the client at an address.
func Key(address netip.Addr) share.Key {
	return share.Key(Network(address).String())
}

// UserKey returns the key of a user. It is that of no address.
func UserKey(name string) share.Key {
	return share.Key("user " + name)
}

// Peer returns the address at the other end of a connection.
func Peer(c net.Conn) netip.Addr {
	return Parse(c.RemoteAddr().String())
}
