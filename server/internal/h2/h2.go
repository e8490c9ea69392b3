// Package h2 serves HTTP/2 within limits that golang.org/x/net/http2 does not have in the version of Debian, and neither
// does the copy of it in Go 1.19.
//
// There a request that its client resets is no longer counted, though its handler goes on: a client may have begun any
// number of them (CVE-2023-44487). A request that the client has the server reset, by a wrong frame, is the same. A header
// may have any number of CONTINUATION frames (CVE-2023-45288). So the frames of each connection are counted between TLS
// and the server.
package h2

import (
	"context"
	"crypto/tls"
	"errors"
	"fmt"
	"net/http"
	"time"

	"golang.org/x/net/http2"

	"davserve/internal/limit"
)

const (
	// Streams is how many requests a connection may have under way. A browser uses a hundred.
	Streams = 100

	maxResets     = 200 // of requests, by the client or the server, that a connection may have at once
	resetsASecond = 20  // beyond these

	maxControls     = 1000 // of frames that carry nothing of a request
	controlsASecond = 100

	maxContinuations = 16 // of one header

	frameSize  = 64 << 10  // of the longest frame that is read
	uploadSize = 512 << 10 // bytes of bodies that a connection may send ahead
)

// errTooMuch says that a client has used up a limit.
var errTooMuch = errors.New("HTTP/2: too many")

// Configure has a server with TLS serve HTTP/2 within the limits of this package.
func Configure(server *http.Server) error {
	conf := &http2.Server{
		MaxConcurrentStreams:         Streams,
		MaxReadFrameSize:             frameSize,
		MaxUploadBufferPerConnection: uploadSize,
		MaxUploadBufferPerStream:     uploadSize,
	}
	if err := http2.ConfigureServer(server, conf); err != nil {
		return fmt.Errorf("HTTP/2: %w", err)
	}
	server.TLSNextProto[http2.NextProtoTLS] = func(hs *http.Server, c *tls.Conn, h http.Handler) {
		ctx := context.Background()
		// As http2.ConfigureServer does: net/http passes on the context of the connection in this way.
		if based, ok := h.(interface{ BaseContext() context.Context }); ok {
			ctx = based.BaseContext()
		}
		conf.ServeConn(newConn(c, time.Now), &http2.ServeConnOpts{Context: ctx, Handler: h, BaseConfig: hs})
	}
	return nil
}

// Disable has a server with TLS serve HTTP/1.1 only.
func Disable(server *http.Server) {
	server.TLSNextProto = map[string]func(*http.Server, *tls.Conn, http.Handler){}
}

// A conn counts the frames of a connection.
type conn struct {
	*tls.Conn
	in, out frames
}

func newConn(c *tls.Conn, now func() time.Time) *conn {
	resets := newBucket(maxResets, resetsASecond, now)
	it := &conn{Conn: c}
	it.in = frames{
		resets: resets, controls: newBucket(maxControls, controlsASecond, now), skip: len(http2.ClientPreface),
		maxBlock: (maxContinuations + 1) * frameSize,
	}
	it.out = frames{resets: resets, isOurs: true}
	return it
}

// Read reads, and closes the connection of a client that has used up a limit.
func (c *conn) Read(p []byte) (int, error) {
	n, err := c.Conn.Read(p)
	if too := c.in.see(p[:n]); too != nil {
		limit.Abort(c.Conn)
		return 0, too
	}
	return n, err
}

// Write writes, and closes the connection of a client that has used up a limit.
func (c *conn) Write(p []byte) (int, error) {
	if too := c.out.see(p); too != nil {
		limit.Abort(c.Conn)
		return 0, too
	}
	return c.Conn.Write(p)
}
