package main

import (
	"context"
	"errors"
	"fmt"
	"log"
	"net"
	"net/http"
	"time"

	"davserve"
	"davserve/internal/accesslog"
	"davserve/internal/auth"
	"davserve/internal/control"
	"davserve/internal/cors"
	"davserve/internal/detach"
	"davserve/internal/h2"
	"davserve/internal/limit"
	"davserve/internal/systemd"
)

// maxHeaderBytes is how long the header of a request may be.
const maxHeaderBytes = 64 << 10

// serve runs the server until ctx is done and the requests under way are answered.
func serve(ctx context.Context, c config, logger *log.Logger) (err error) {
	reloader := newReloader(c.rights, logger)
	defer reloader.end()
	if err := c.complete(logger); err != nil {
		return err
	}
	meter, closeMetrics, err := c.meter(logger)
	if err != nil {
		return err
	}
	defer closeMetrics()
	dav, err := davserve.New(ctx, c.options)
	if ctx.Err() != nil && errors.Is(err, ctx.Err()) {
		return nil // It was interrupted while davd loaded its folder.
	}
	if err != nil {
		return inFile(c.rights, err)
	}
	defer func() { err = closeDavd(dav, c.shutdownTimeout, err) }()
	ctx, cancel := context.WithCancel(ctx)
	defer cancel()
	reloader.start(ctx, dav)
	meter.show(dav)
	closeControl, err := c.control(ctx, dav, logger)
	if err != nil {
		return err
	}
	defer closeControl()
	return c.serveHTTP(ctx, dav, meter, logger)
}

// complete sets the options of the handler that are not flags.
func (c *config) complete(logger *log.Logger) (err error) {
	if c.options.Davd == "" {
		c.options.Davd = defaultDavd()
	}
	c.options.Log = logger
	c.options.Principal = func(r *http.Request) (string, bool) { return auth.User(r.Context()) }
	c.options.Client = func(r *http.Request) string { return string(c.client(r)) }
	if c.rights != "" {
		c.options.Rights, err = readRights(c.rights)
	}
	return err
}

// serveHTTP serves over HTTP until ctx is done and the requests under way are answered.
func (c *config) serveHTTP(ctx context.Context, dav *davserve.Handler, meter *meter, logger *log.Logger) error {
	limits := c.newLimits()
	handler, err := c.handler(dav, limits, meter, logger)
	if err != nil {
		return err
	}
	tlsConfig, err := c.tlsConfig(logger)
	if err != nil {
		return err
	}
	if tlsConfig != nil && c.handshakes > 0 {
		tlsConfig.GetConfigForClient = limit.NewHandshakes(c.handshakes, limits.connection).Await
	}
	listener, err := net.Listen("tcp", c.listen)
	if err != nil {
		return err
	}
	shared := limit.NewConnections(meter.listener(listener), c.maxConnections, c.options.StallTimeout, limits.connection)
	meter.watch(shared, limits)
	server := &http.Server{
		Handler:           shared.Handler(handler),
		ReadHeaderTimeout: c.headerTimeout,
		IdleTimeout:       c.idleTimeout,
		MaxHeaderBytes:    maxHeaderBytes,
		ConnContext:       davserve.ConnContext,
		TLSConfig:         tlsConfig,
		ErrorLog:          logger,
	}
	if err := c.configureHTTP2(server); err != nil {
		return err
	}
	c.announce(logger, listener.Addr())
	return c.serveUntil(ctx, server, shared)
}

// configureHTTP2 has a server with TLS speak HTTP/2, or not.
func (c *config) configureHTTP2(server *http.Server) error {
	switch {
	case !c.hasTLS():
		return nil
	case c.http2:
		return h2.Configure(server)
	}
	h2.Disable(server)
	return nil
}

// control answers the commands of an operator until the function that it returns is called. Without a folder it does so
// only with -socket. Since davd has the folder open, no other server listens at a socket there. A server that cannot have
// one there serves without it: its path may be too long, or the disk full.
func (c *config) control(ctx context.Context, dav *davserve.Handler, logger *log.Logger) (closeControl func(), err error) {
	none := func() {}
	socket := c.socket
	switch {
	case socket == "" && c.options.Folder == "":
		return none, nil
	case socket == "":
		socket = socketIn(c.options.Folder)
	}
	listener, err := control.Listen(socket)
	switch {
	case err != nil && c.socket == "":
		logger.Printf("no backup can be made, no file checked, and no lock removed: %v (-socket names another place)", err)
		return none, nil
	case err != nil:
		return nil, err
	}
	server := control.Serve(ctx, listener, dav, c.options.StallTimeout, logger)
	return func() {
		ctx, cancel := context.WithTimeout(context.Background(), c.shutdownTimeout)
		defer cancel()
		if err := server.Close(ctx); err != nil {
			logger.Printf("the socket: %v", err)
		}
	}, nil
}

// closeDavd ends davd after the last request.
func closeDavd(dav *davserve.Handler, timeout time.Duration, served error) error {
	ctx, cancel := context.WithTimeout(context.Background(), timeout)
	defer cancel()
	if err := dav.Close(ctx); err != nil && served == nil {
		return err
	}
	return served
}

// handler puts the handlers one around the other. The health of the server is nobody's secret, and it is shown under
// load, too.
func (c *config) handler(dav *davserve.Handler, limits *limits, meter *meter, logger *log.Logger) (http.Handler, error) {
	inner, err := c.authenticate(logUser(limits.serve(dav)), limits, logger)
	if err != nil {
		return nil, err
	}
	if len(c.corsOrigins) > 0 {
		if inner, err = cors.New(c.corsOrigins, inner); err != nil {
			return nil, err
		}
	}
	inner = limits.enter(detach.Changes(inner))
	checkups := (&health{check: dav.Check}).handler(limits)
	outer := http.HandlerFunc(func(w http.ResponseWriter, r *http.Request) {
		if r.URL.Path == healthPath {
			checkups.ServeHTTP(w, r)
			return
		}
		inner.ServeHTTP(w, r)
	})
	served, err := c.hostsServed()
	if err != nil {
		return nil, err
	}
	logged := meter.around(accesslog.New(logger, served.handler(outer), meter.observers()...))
	return limit.Unread(c.options.StallTimeout, logged), nil
}

// logUser has the log show the user.
func logUser(next http.Handler) http.Handler {
	return http.HandlerFunc(func(w http.ResponseWriter, r *http.Request) {
		if name, ok := auth.User(r.Context()); ok {
			accesslog.SetUser(r.Context(), name)
		}
		next.ServeHTTP(w, r)
	})
}

// authenticate returns a handler that finds the user of each request, if the server has users.
func (c *config) authenticate(next http.Handler, limits *limits, logger *log.Logger) (http.Handler, error) {
	switch {
	case c.users != "":
		users, err := auth.Load(c.users)
		if err != nil {
			return nil, err
		}
		users.Log = logger
		basic, err := auth.NewBasic(users, c.realm, c.maxRequests/4+1)
		if err != nil {
			return nil, err
		}
		basic.SetAddress(limits.proxies.Address)
		return basic.Handler(next), nil
	case c.userHeader != "":
		proxy, err := auth.NewProxy(c.userHeader, c.trustedProxies, c.realm)
		if err != nil {
			return nil, err
		}
		return proxy.Handler(next), nil
	}
	return next, nil
}

// announce logs where the server listens.
func (c *config) announce(logger *log.Logger, address net.Addr) {
	scheme := "http"
	if c.hasTLS() {
		scheme = "https"
	}
	logger.Printf("serving WebDAV at %s://%s%s/", scheme, address, c.options.Prefix)
	if c.rights != "" {
		logger.Printf("the access rules of %s hold", c.rights)
	}
	if c.options.Folder != "" {
		logger.Printf("files and locks are kept in the folder %s", c.options.Folder)
		return
	}
	logger.Print("files and locks are kept in memory and are lost when the server ends")
}

// notify says to systemd in which state the server is.
func (c *config) notify(state string) {
	if err := systemd.Notify(state); err != nil {
		c.options.Log.Print(err)
	}
}

// serveUntil serves until ctx is done, and then for as long as requests are under way, up to the timeout.
func (c *config) serveUntil(ctx context.Context, server *http.Server, listener net.Listener) error {
	ended := make(chan error, 1)
	go func() {
		if c.hasTLS() {
			ended <- server.ServeTLS(listener, "", "") // TLSConfig has the certificate.
			return
		}
		ended <- server.Serve(listener)
	}()
	c.notify(systemd.Ready)
	select {
	case err := <-ended:
		return fmt.Errorf("the listener: %w", err)
	case <-ctx.Done():
	}
	c.notify(systemd.Stopping)
	limited, cancel := context.WithTimeout(context.Background(), c.shutdownTimeout)
	defer cancel()
	err := server.Shutdown(limited)
	if errors.Is(err, context.DeadlineExceeded) {
		server.ErrorLog.Print("requests that were still under way are broken off")
		return server.Close()
	}
	return err
}
