package main

import (
	"net"
	"net/http"
	"os"
	"runtime/debug"
	"time"

	"davserve/internal/auth"
	"davserve/internal/caller"
	"davserve/internal/limit"
	"davserve/internal/share"
)

const (
	// insideOfRequests is how many requests may be inside the server, with those that log in or wait for their turn, for
	// each that may be served at once.
	insideOfRequests = 4
	// requestPatience is how long a request waits for its turn.
	requestPatience = time.Second
	// healthRequests is how many requests for the health may be under way.
	healthRequests = 64
	// memoryLimit is how much memory the Go runtime aims at, in bytes, unless GOMEMLIMIT says otherwise.
	memoryLimit = 1 << 30
)

// limitMemory has the collector work more when there is much garbage.
func limitMemory() {
	if os.Getenv("GOMEMLIMIT") == "" {
		debug.SetMemoryLimit(memoryLimit)
	}
}

// limits are what all clients share.
type limits struct {
	proxies  caller.Proxies
	field    string // in which a proxy passes the user; empty: none
	client   func(*http.Request) share.Key
	pace     limit.Pace
	inside   *share.Pool // requests in the server
	requests *share.Pool // requests that are served
	health   *share.Pool // requests for the health
}

func (c *config) newLimits() *limits {
	inside := insideOfRequests * c.maxRequests
	return &limits{
		proxies:  caller.Proxies(c.trustedProxies),
		field:    c.userHeader,
		client:   c.client,
		pace:     limit.Pace{Stall: c.options.StallTimeout, Least: c.options.LeastRate},
		inside:   share.NewPool(int64(inside), c.options.ClientShare, 1),
		requests: share.NewPool(int64(c.maxRequests), c.options.ClientShare, inside),
		health:   share.NewPool(healthRequests, c.options.ClientShare, 1),
	}
}

// connection returns who has opened a connection. That of a proxy is nobody's alone.
func (l *limits) connection(c net.Conn) (key share.Key, isProxy bool) {
	address := caller.Peer(c)
	if l.proxies.Has(address) {
		return "proxies", true
	}
	return caller.Key(address), false
}

// address returns the key of the address from which a request comes or, if a proxy names it, that of its user.
func (l *limits) address(r *http.Request) share.Key {
	if l.field != "" && l.proxies.Has(caller.Parse(r.RemoteAddr)) {
		if name := r.Header.Get(l.field); name != "" {
			return caller.UserKey(name)
		}
	}
	return caller.Key(l.proxies.Address(r))
}

// client returns the key of the user of a request or, without one, of its address.
func (c *config) client(r *http.Request) share.Key {
	if name, ok := auth.User(r.Context()); ok {
		return caller.UserKey(name)
	}
	return caller.Key(caller.Proxies(c.trustedProxies).Address(r))
}

// enter passes requests to next, as many as may be in the server. They are there until their responses are received.
func (l *limits) enter(next http.Handler) http.Handler {
	return limit.Requests(l.inside, 0, l.address, limit.Responses(l.pace, next))
}

// checkup passes requests for the health to next, as many as may be under way.
func (l *limits) checkup(next http.Handler) http.Handler {
	return limit.Requests(l.health, 0, l.address, limit.Responses(l.pace, next))
}

// serve passes requests to next, as many as may be served at once. The others wait for their turn.
func (l *limits) serve(next http.Handler) http.Handler {
	return limit.Requests(l.requests, requestPatience, l.client, next)
}
