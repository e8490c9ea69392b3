package limit

import (
	"context"
	"crypto/tls"
	"errors"
	"net"
	"net/http"
	"sync"
	"time"

	"davserve/internal/share"
)

// leastParked is how many connections may wait for a place, however few places there are.
const leastParked = 128

const (
	// acceptPause is the time until Accept is tried again after it failed, as for want of file descriptors.
	acceptPause = 50 * time.Millisecond
	// restTime is how long a connection has served no request before it is closed for another client. net/http still
	// writes the end of a response when its handler has returned. It is also how often connections that wait look again.
	restTime = 100 * time.Millisecond
)

// Connections is a listener that has at most n connections open at once, and shares these among clients. Open ones are
// bounded as by Listener in what a write may take.
//
// A client may have all of them while nobody else wants one. When a client wants one and all are taken, one that serves no
// request is closed: the one that has rested longest of those of the client that has the most, if that client has at least
// two more than the one that wants it. A connection for which there is no room waits, and gets a free place in turn:
// first one of the client with the fewest. As many may wait as may be open, and at least 128. Beyond that, one is closed
// of the client of which the most wait.
//
// The connections of proxies are those of many clients: they are never closed for another client, and others are closed
// for them. Handler knows which connections serve a request, and needs ConnContext.
type Connections struct {
	listener net.Listener
	most     int
	parked   int
	stall    time.Duration
	keyOf    func(net.Conn) (key share.Key, isProxy bool)

	ready  chan net.Conn
	failed chan error
	closed chan struct{}
	start  sync.Once
	close  sync.Once

	mu      sync.Mutex
	open    int
	waiting int
	peers   map[share.Key]*peer
	again   *time.Timer // looks again for a place of what waits; nil: nothing waits
}

// A peer is a client with connections that are open or wait.
type peer struct {
	key     share.Key
	isProxy bool
	open    map[*place]struct{}
	waiting []net.Conn
}

// NewConnections returns a listener for the connections of l, at most n at once, n at least 1. keyOf says whose a
// connection is.
func NewConnections(l net.Listener, n int, stall time.Duration, keyOf func(net.Conn) (share.Key, bool)) *Connections {
	parked := n
	if parked < leastParked {
		parked = leastParked
	}
	return &Connections{
		listener: l, most: n, parked: parked, stall: stall, keyOf: keyOf,
		ready: make(chan net.Conn, n), failed: make(chan error), closed: make(chan struct{}),
		peers: make(map[share.Key]*peer),
	}
}

// Accept implements net.Listener.
func (c *Connections) Accept() (net.Conn, error) {
	c.start.Do(func() { go c.run() })
	select {
	case <-c.closed:
		return nil, net.ErrClosed
	default:
	}
	select {
	case accepted := <-c.ready:
		return accepted, nil
	case err := <-c.failed:
		return nil, err
	case <-c.closed:
		return nil, net.ErrClosed
	}
}

// Addr implements net.Listener.
func (c *Connections) Addr() net.Addr { return c.listener.Addr() }

// Close closes the listener, ends each Accept, and closes what waits. Open connections stay.
func (c *Connections) Close() error {
	c.close.Do(func() {
		close(c.closed)
		c.mu.Lock()
		defer c.mu.Unlock()
		for _, p := range c.peers {
			for _, conn := range p.waiting {
				conn.Close()
			}
			c.waiting -= len(p.waiting)
			p.waiting = nil
		}
	})
	err := c.listener.Close()
	for {
		select {
		case conn := <-c.ready:
			conn.Close()
		default:
			return err
		}
	}
}

// run accepts what comes, and gives it a place.
func (c *Connections) run() {
	for {
		conn, err := c.listener.Accept()
		switch {
		case errors.Is(err, net.ErrClosed):
			return
		case err != nil:
			select {
			case c.failed <- err: // http.Server logs it, and goes on or ends
			case <-c.closed:
				return
			}
			time.Sleep(acceptPause)
		default:
			c.add(conn)
		}
	}
}

// add gives a connection a place, now or later, or closes it.
func (c *Connections) add(conn net.Conn) {
	key, isProxy := c.keyOf(conn)
	c.mu.Lock()
	p := c.peers[key]
	if p == nil {
		p = &peer{key: key, isProxy: isProxy, open: make(map[*place]struct{})}
		c.peers[key] = p
	}
	if c.open < c.most {
		c.admit(p, conn)
		c.mu.Unlock()
		return
	}
	refused := c.park(p, conn)
	c.forget(p)
	c.mu.Unlock()
	if refused != nil {
		refused.Close()
	}
	c.settle()
}

// settle closes connections for those of others that wait, and looks again after a while if some still wait.
func (c *Connections) settle() {
	for i := 0; i < c.most; i++ {
		c.mu.Lock()
		victim := c.victim()
		c.mu.Unlock()
		if victim == nil {
			break
		}
		victim.Close() // Its place goes to one that waits.
	}
	c.mu.Lock()
	defer c.mu.Unlock()
	if c.waiting > 0 && c.again == nil {
		c.again = time.AfterFunc(restTime, func() {
			c.mu.Lock()
			c.again = nil
			c.mu.Unlock()
			c.settle()
		})
	}
}

// admit opens a connection. The lock is held, as it is for what follows.
func (c *Connections) admit(p *peer, conn net.Conn) {
	opened := &place{in: c, peer: p, rested: time.Now()}
	opened.conn.stall = c.stall
	opened.conn.Conn = conn
	p.open[opened] = struct{}{}
	c.open++
	c.ready <- opened // It has room for all that are open.
}

// park has a connection wait. It returns one that must be closed for that, which may be the same, or nil.
func (c *Connections) park(p *peer, conn net.Conn) (refused net.Conn) {
	select {
	case <-c.closed:
		return conn
	default:
	}
	if c.waiting >= c.parked {
		longest := p
		for _, other := range c.peers {
			if len(other.waiting) > len(longest.waiting) {
				longest = other
			}
		}
		if longest == p {
			return conn
		}
		last := len(longest.waiting) - 1
		refused, longest.waiting = longest.waiting[last], longest.waiting[:last]
		c.waiting--
		c.forget(longest)
	}
	p.waiting = append(p.waiting, conn)
	c.waiting++
	return refused
}

// victim returns the connection that is closed for the next one that waits, or nil if there is none.
func (c *Connections) victim() (longest *place) {
	p := c.next()
	if p == nil {
		return nil
	}
	for _, other := range c.peers {
		if other == p || other.isProxy || (!p.isProxy && len(other.open) < len(p.open)+2) {
			continue
		}
		if longest != nil && len(other.open) < len(longest.peer.open) {
			continue
		}
		if it := other.rested(); it != nil {
			longest = it
		}
	}
	return longest
}

// rested returns the connection that has rested longest, or nil if none has for long enough.
func (p *peer) rested() (longest *place) {
	least := time.Now().Add(-restTime)
	for it := range p.open {
		if it.busy == 0 && it.rested.Before(least) {
			longest, least = it, it.rested
		}
	}
	return longest
}

// next returns the client that gets the next place, or nil if none waits.
func (c *Connections) next() (next *peer) {
	for _, p := range c.peers {
		if len(p.waiting) > 0 && (next == nil || isBefore(p, next)) {
			next = p
		}
	}
	return next
}

// release takes a place back and gives it to a connection that waits.
func (c *Connections) release(from *place) {
	c.mu.Lock()
	defer c.mu.Unlock()
	delete(from.peer.open, from)
	c.open--
	c.forget(from.peer)
	next := c.next()
	if next == nil {
		return
	}
	conn := next.waiting[0]
	next.waiting = next.waiting[1:]
	c.waiting--
	c.admit(next, conn)
}

// isBefore reports whether the first peer gets a place before the second.
func isBefore(one, other *peer) bool {
	if one.isProxy != other.isProxy {
		return one.isProxy
	}
	return len(one.open) < len(other.open)
}

func (c *Connections) forget(p *peer) {
	if len(p.open) == 0 && len(p.waiting) == 0 && c.peers[p.key] == p {
		delete(c.peers, p.key)
	}
}

// Use returns how many connections are open, and how many wait.
func (c *Connections) Use() (open, waiting int) {
	c.mu.Lock()
	defer c.mu.Unlock()
	return c.open, c.waiting
}

// Handler returns a handler that passes requests to next. While one is there, its connection is not closed for another
// client.
func (c *Connections) Handler(next http.Handler) http.Handler {
	return http.HandlerFunc(func(w http.ResponseWriter, r *http.Request) {
		if it := c.placeOf(r.Context()); it != nil {
			it.begin()
			defer it.end()
		}
		next.ServeHTTP(w, r)
	})
}

// placeOf returns the place of the connection in a context, or nil.
func (c *Connections) placeOf(ctx context.Context) *place {
	conn, _ := ctx.Value(connKey{}).(net.Conn)
	if secure, ok := conn.(*tls.Conn); ok {
		conn = secure.NetConn()
	}
	it, _ := conn.(*place)
	return it
}

// A place is an open connection.
type place struct {
	conn
	in   *Connections
	peer *peer
	once sync.Once

	busy   int       // how many requests it serves
	rested time.Time // since when it serves none
}

func (p *place) begin() {
	p.in.mu.Lock()
	defer p.in.mu.Unlock()
	p.busy++
}

func (p *place) end() {
	p.in.mu.Lock()
	defer p.in.mu.Unlock()
	p.busy--
	p.rested = time.Now()
}

// Close closes the connection. The first time it gives its place back.
func (p *place) Close() error {
	err := p.conn.Conn.Close()
	p.once.Do(func() { p.in.release(p) })
	return err
}
