// Package netconn has what a connection around another one needs, so that http.Server and crypto/tls use both alike.
package netconn

import (
	"errors"
	"net"
)

// A Wrapper passes on what a connection does. A type that embeds it changes some of that.
type Wrapper struct {
	net.Conn
}

// CloseWrite closes the sending side. http.Server calls it when it answers before it has read the whole request, so
// that the client still gets the response.
func (w Wrapper) CloseWrite() error {
	if c, ok := w.Conn.(interface{ CloseWrite() error }); ok {
		return c.CloseWrite()
	}
	return errors.New("the connection has no CloseWrite")
}

// NetConn returns the connection below, as that of tls.Conn does.
func (w Wrapper) NetConn() net.Conn {
	return w.Conn
}
