package main

import (
	"bytes"
	"context"
	"errors"
	"fmt"
	"log"
	"net"
	"net/http"
	"runtime"
	"strconv"
	"sync/atomic"
	"time"

	"davserve"
	"davserve/internal/accesslog"
	"davserve/internal/davd"
	"davserve/internal/limit"
	"davserve/internal/logqueue"
	"davserve/internal/metrics"
)

const (
	metricsPath        = "/metrics"
	metricsTime        = 5 * time.Second // Prometheus waits ten.
	metricsConnections = 16
)

// counted are the methods that metrics name. Each other one is "other", so that no client makes many of them.
var counted = map[string]bool{
	"COPY": true, "DELETE": true, "GET": true, "HEAD": true, "LOCK": true, "MKCOL": true, "MOVE": true, "OPTIONS": true,
	"PATCH": true, "POST": true, "PROPFIND": true, "PROPPATCH": true, "PUT": true, "UNLOCK": true,
}

// A meter measures a server, and serves what it has measured. A nil one does nothing.
type meter struct {
	config   config
	log      *log.Logger
	began    time.Time
	traffic  metrics.Traffic
	requests *metrics.Vec[metrics.Counter]
	times    *metrics.Vec[metrics.Histogram]
	underWay atomic.Int64
	dav      atomic.Pointer[davserve.Handler] // nil: davd is started
	shared   atomic.Pointer[watched]          // nil: nothing is served yet
}

// watched is what clients share.
type watched struct {
	connections *limit.Connections
	limits      *limits
}

func newMeter(c config, logger *log.Logger) *meter {
	return &meter{
		config:   c,
		log:      logger,
		began:    time.Now(),
		requests: metrics.NewCounters("method", "status"),
		times:    metrics.NewTimes("method"),
	}
}

// meter serves metrics until the function that it returns is called, if they have an address. They are served while davd
// loads its folder, too.
func (c *config) meter(logger *log.Logger) (m *meter, closeMetrics func(), err error) {
	if c.metrics == "" {
		return nil, func() {}, nil
	}
	listener, err := net.Listen("tcp", c.metrics)
	if err != nil {
		return nil, nil, fmt.Errorf("the metrics: %w", err)
	}
	m = newMeter(*c, logger)
	server := &http.Server{
		Handler:           m,
		ReadHeaderTimeout: c.headerTimeout,
		IdleTimeout:       c.idleTimeout,
		MaxHeaderBytes:    maxHeaderBytes,
		ErrorLog:          logger,
	}
	go func() {
		err := server.Serve(limit.Listener(listener, metricsConnections, c.options.StallTimeout))
		if !errors.Is(err, http.ErrServerClosed) {
			logger.Printf("the metrics are served no more: %v", err)
		}
	}()
	logger.Printf("serving metrics at http://%s%s", listener.Addr(), metricsPath)
	return m, func() { server.Close() }, nil
}

// show adds the metrics of a handler.
func (m *meter) show(dav *davserve.Handler) {
	if m != nil {
		m.dav.Store(dav)
	}
}

// watch adds the metrics of what waits for its share.
func (m *meter) watch(connections *limit.Connections, limits *limits) {
	if m != nil {
		m.shared.Store(&watched{connections, limits})
	}
}

// listener returns a listener whose connections are counted.
func (m *meter) listener(l net.Listener) net.Listener {
	if m == nil {
		return l
	}
	return m.traffic.Listener(l)
}

// around returns a handler whose requests are counted while they are under way.
func (m *meter) around(next http.Handler) http.Handler {
	if m == nil {
		return next
	}
	return http.HandlerFunc(func(w http.ResponseWriter, r *http.Request) {
		m.underWay.Add(1)
		defer m.underWay.Add(-1)
		next.ServeHTTP(w, r)
	})
}

// observers returns what counts a request that has ended.
func (m *meter) observers() []func(accesslog.Request) {
	if m == nil {
		return nil
	}
	return []func(accesslog.Request){m.observe}
}

func (m *meter) observe(r accesslog.Request) {
	method, status := "other", "aborted"
	if counted[r.Method] {
		method = r.Method
	}
	if !r.Aborted {
		status = strconv.Itoa(r.Status)
	}
	m.requests.With(method, status).Add(1)
	m.times.With(method).ObserveTime(r.Duration)
}

// ServeHTTP implements http.Handler.
func (m *meter) ServeHTTP(w http.ResponseWriter, r *http.Request) {
	switch {
	case r.URL.Path != metricsPath:
		http.NotFound(w, r)
	case r.Method != http.MethodGet && r.Method != http.MethodHead:
		w.Header().Set("Allow", "GET, HEAD")
		http.Error(w, "405 Method Not Allowed", http.StatusMethodNotAllowed)
	default:
		m.serve(w, r)
	}
}

func (m *meter) serve(w http.ResponseWriter, r *http.Request) {
	ctx, cancel := context.WithTimeout(r.Context(), metricsTime)
	defer cancel()
	var b bytes.Buffer
	if err := m.write(ctx, &b); err != nil {
		m.log.Printf("the metrics: %v", err)
		http.Error(w, "500 Internal Server Error", http.StatusInternalServerError)
		return
	}
	w.Header().Set("Content-Type", metrics.ContentType)
	w.Header().Set("Content-Length", strconv.Itoa(b.Len()))
	w.Write(b.Bytes())
}

// write writes all metrics to a buffer.
func (m *meter) write(ctx context.Context, w *bytes.Buffer) error {
	e := metrics.NewEncoder(w)
	e.Gauge("davserve_build_info", "What davserve was built from.", 1,
		"version", version, "revision", ownRevision(), "go", runtime.Version())
	e.Gauge("process_start_time_seconds", "When davserve was started, in seconds since 1970.", float64(m.began.UnixMilli())/1000)
	e.Gauge("davserve_connections", "Open connections.", float64(m.traffic.Open()))
	e.Gauge("davserve_connections_limit", "The option -max-connections.", float64(m.config.maxConnections))
	e.Counter("davserve_connections_accepted_total", "Connections that were accepted.", m.traffic.Accepted.Value())
	e.Counter("davserve_received_bytes_total", "Bytes that clients have sent, with those of TLS.", m.traffic.Received.Value())
	e.Counter("davserve_sent_bytes_total", "Bytes that were sent to clients, with those of TLS.", m.traffic.Sent.Value())
	e.Gauge("davserve_requests_under_way", "Requests that have not ended.", float64(m.underWay.Load()))
	e.Gauge("davserve_requests_limit", "The option -max-requests.", float64(m.config.maxRequests))
	if shared := m.shared.Load(); shared != nil {
		_, waiting := shared.connections.Use()
		e.Gauge("davserve_connections_waiting", "Connections that wait for a place.", float64(waiting))
		inside, _ := shared.limits.inside.Use()
		e.Gauge("davserve_requests_inside", "Requests in the server, with those that log in or wait.", float64(inside))
		_, turns := shared.limits.requests.Use()
		e.Gauge("davserve_requests_waiting", "Requests that wait for their turn.", float64(turns))
	}
	e.Counters("davserve_requests_total", "Requests that have ended, by their methods and the statuses of their responses.", m.requests)
	e.Histograms("davserve_request_duration_seconds", "Time from the header of a request to the end of its response.", m.times)
	if lines, ok := m.log.Writer().(*logqueue.Queue); ok {
		e.Counter("davserve_log_dropped_lines_total", "Lines of the log that nobody read in time.", lines.Dropped())
	}
	dav := m.dav.Load()
	if dav == nil {
		davd.Status{Loading: m.config.options.Folder != ""}.WriteTo(e)
		return e.Flush()
	}
	if err := e.Flush(); err != nil {
		return err
	}
	return dav.WriteMetrics(ctx, w)
}
