// Package limit bounds what clients can hold: connections, requests at once, and the time in which nothing moves.
package limit

import (
	"net"
	"sync"
	"time"

	"davserve/internal/netconn"
)

// pieceSize is how many bytes of a write a client must receive in time.
const pieceSize = 64 << 10

// Listener returns a listener that has at most n connections of l open at once, n at least 1. Further connections
// wait in the backlog of the system until one is closed. Close also ends an Accept that waits for this.
//
// If the time stall is positive, a write to a connection fails when the client receives less than 64 KiB in that
// time. So a client that stalls in the middle of a response does not keep its connection.
//
// TLS goes around it, as in tls.NewListener(limit.Listener(l, n, stall), config), so that http.Server sees a *tls.Conn.
func Listener(l net.Listener, n int, stall time.Duration) net.Listener {
	return &listener{Listener: l, stall: stall, slots: make(chan struct{}, n), closed: make(chan struct{})}
}

type listener struct {
	net.Listener
	stall  time.Duration
	slots  chan struct{} // has an item for each open connection, and for an Accept of l
	once   sync.Once
	closed chan struct{}
}

// Accept waits until fewer than n connections are open, and then for the next one.
func (l *listener) Accept() (net.Conn, error) {
	select {
	case <-l.closed:
		return nil, net.ErrClosed
	case l.slots <- struct{}{}:
	}
	c, err := l.Listener.Accept()
	if err != nil {
		<-l.slots
		return nil, err
	}
	return &conn{Wrapper: netconn.Wrapper{Conn: c}, stall: l.stall, slots: l.slots}, nil
}

// Close closes the listener and ends each Accept. Open connections stay.
func (l *listener) Close() error {
	l.once.Do(func() { close(l.closed) })
	return l.Listener.Close()
}

// A conn gives its slot back when it is closed for the first time.
type conn struct {
	netconn.Wrapper
	stall   time.Duration
	writing sync.Mutex // keeps the pieces of a write together
	slots   chan struct{}
	once    sync.Once
}

// Write writes to the connection. The client has the time for each piece, so a large write to a slow client does not
// fail while the client goes on receiving.
func (c *conn) Write(p []byte) (n int, err error) {
	if c.stall <= 0 {
		return c.Conn.Write(p)
	}
	c.writing.Lock()
	defer c.writing.Unlock()
	for {
		piece := p[n:]
		if len(piece) > pieceSize {
			piece = piece[:pieceSize]
		}
		if err := c.Conn.SetWriteDeadline(time.Now().Add(c.stall)); err != nil {
			return n, err
		}
		m, err := c.Conn.Write(piece)
		n += m
		if err != nil || n == len(p) {
			return n, err
		}
	}
}

func (c *conn) Close() error {
	err := c.Conn.Close()
	c.once.Do(func() { <-c.slots })
	return err
}
