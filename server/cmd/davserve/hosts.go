package main

import (
	"errors"
	"fmt"
	"net"
	"net/http"
	"net/netip"
	"net/url"
	"strings"
)

// hosts are names by which clients may reach the server.
type hosts map[string]bool

// hostsServed returns the names by which a server without users on the loopback may be reached, or nil if any may be
// used. A page in a browser can have its own name mean the loopback (DNS rebinding), and then read what is there. Its
// requests have that name in Host.
func (c *config) hostsServed() (hosts, error) {
	isLocal, err := isLoopback(c.listen)
	if err != nil || !isLocal || c.users != "" || c.userHeader != "" {
		return nil, err
	}
	served := hosts{"localhost": true}
	for _, name := range c.hosts {
		served[nameIn(name)] = true
	}
	if public, err := url.Parse(c.options.PublicURL); err == nil && public.Host != "" {
		served[nameIn(public.Host)] = true
	}
	return served, nil
}

// nameIn returns the name in a Host, without its port.
func nameIn(host string) string {
	if name, _, err := net.SplitHostPort(host); err == nil {
		host = name
	}
	host = strings.TrimSuffix(strings.TrimPrefix(host, "["), "]")
	return strings.ToLower(strings.TrimSuffix(host, "."))
}

// checkName refuses what is no name of a host.
func checkName(name string) error {
	if name == "" || strings.ContainsAny(name, "/:@ \t*") && !isAddress(name) {
		return errors.New("it is the name of a host without a port")
	}
	return nil
}

func isAddress(name string) bool {
	_, err := netip.ParseAddr(strings.TrimSuffix(strings.TrimPrefix(name, "["), "]"))
	return err == nil
}

// has reports whether a server may be reached by the Host of a request. Without one, as in HTTP/1.0, it may: no browser
// sends that.
func (h hosts) has(host string) bool {
	name := nameIn(host)
	if name == "" {
		return true
	}
	if address, err := netip.ParseAddr(name); err == nil && address.Unmap().IsLoopback() {
		return true
	}
	return h[name]
}

// handler passes requests to next that have a name of the server.
func (h hosts) handler(next http.Handler) http.Handler {
	if h == nil {
		return next
	}
	return http.HandlerFunc(func(w http.ResponseWriter, r *http.Request) {
		if h.has(r.Host) || r.Method == http.MethodConnect { // whose host is another server, and which is 405
			next.ServeHTTP(w, r)
			return
		}
		if r.ProtoMajor == 2 { // as limit.Busy: no body that could wait for its client
			w.Header().Set("Content-Length", "0")
			w.WriteHeader(http.StatusMisdirectedRequest)
			return
		}
		text := fmt.Sprintf("421 Misdirected Request: the host %q is not served (davserve -host NAME adds one)", r.Host)
		http.Error(w, text, http.StatusMisdirectedRequest)
	})
}
