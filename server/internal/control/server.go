package control

import (
	"context"
	"errors"
	"log"
	"net"
	"net/http"
	"time"

	"davserve/internal/limit"
)

const (
	connections   = 16 // how many may be open
	headerTimeout = 20 * time.Second
)

var (
	errEnds = errors.New("the server ends")
	errLeft = errors.New("the client has left")
)

type serverKey struct{}

// A Server answers the commands of an operator that arrive at a socket.
type Server struct {
	http    *http.Server
	handler *Handler
	cancel  context.CancelFunc
}

// Serve answers what arrives at a listener, until Close or until ctx is done, which breaks a backup or a check off. A client
// that receives nothing for so long is left. Zero is no limit.
func Serve(ctx context.Context, listener net.Listener, source Source, stall time.Duration, log *log.Logger) *Server {
	base, cancel := context.WithCancel(ctx)
	base = context.WithValue(base, serverKey{}, base)
	s := &Server{handler: NewHandler(source, log), cancel: cancel}
	s.http = &http.Server{
		Handler:           s.handler,
		ReadHeaderTimeout: headerTimeout,
		BaseContext:       func(net.Listener) context.Context { return base },
		ErrorLog:          log,
	}
	go s.http.Serve(limit.Listener(listener, connections, stall))
	return s
}

// Close breaks off a backup and a check that are under way, waits until davd knows of their end or ctx is done, and removes
// the socket.
func (s *Server) Close(ctx context.Context) error {
	s.handler.close() // net/http does not wait for a request that has arrived.
	s.cancel()
	err := s.http.Close()
	ended := make(chan struct{})
	go func() {
		s.handler.serving.Wait()
		close(ended)
	}()
	select {
	case <-ended:
		return err
	case <-ctx.Done():
		return ctx.Err()
	}
}

// reasonOf returns why the context of a request is done.
func reasonOf(ctx context.Context) error {
	if base, ok := ctx.Value(serverKey{}).(context.Context); ok && base.Err() != nil {
		return errEnds
	}
	return errLeft
}
