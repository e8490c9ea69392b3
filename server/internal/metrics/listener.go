package metrics

import (
	"net"
	"sync"
	"sync/atomic"

	"davserve/internal/netconn"
)

// Traffic counts connections and their bytes.
type Traffic struct {
	Accepted Counter
	Received Counter // bytes
	Sent     Counter // bytes
	open     atomic.Int64
}

// Open returns how many connections are open.
func (t *Traffic) Open() int64 { return t.open.Load() }

// Listener returns a listener that counts the connections of l.
func (t *Traffic) Listener(l net.Listener) net.Listener {
	return &listener{Listener: l, traffic: t}
}

type listener struct {
	net.Listener
	traffic *Traffic
}

// Accept waits for the next connection, and counts it.
func (l *listener) Accept() (net.Conn, error) {
	c, err := l.Listener.Accept()
	if err != nil {
		return nil, err
	}
	l.traffic.Accepted.Add(1)
	l.traffic.open.Add(1)
	return &conn{Wrapper: netconn.Wrapper{Conn: c}, traffic: l.traffic}, nil
}

// A conn counts the bytes of a connection.
type conn struct {
	netconn.Wrapper
	traffic *Traffic
	once    sync.Once
}

// Read reads, and counts the bytes.
func (c *conn) Read(p []byte) (int, error) {
	n, err := c.Conn.Read(p)
	c.traffic.Received.Add(uint64(n))
	return n, err
}

// Write writes, and counts the bytes.
func (c *conn) Write(p []byte) (int, error) {
	n, err := c.Conn.Write(p)
	c.traffic.Sent.Add(uint64(n))
	return n, err
}

// Close closes the connection, which does not count as open any more.
func (c *conn) Close() error {
	c.once.Do(func() { c.traffic.open.Add(-1) })
	return c.Conn.Close()
}
