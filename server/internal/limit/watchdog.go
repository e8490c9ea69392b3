package limit

import (
	"context"
	"crypto/tls"
	"net"
	"sync"
	"time"
)

type connKey struct{}

// ConnContext returns a context that has the connection, for Watch. It is the ConnContext of an http.Server.
func ConnContext(ctx context.Context, c net.Conn) context.Context {
	return context.WithValue(ctx, connKey{}, c)
}

// A Pace is how fast a client has to send or to receive.
type Pace struct {
	// Stall is how long the server waits for a client that sends or receives nothing. If it is not positive, the server
	// waits for ever.
	Stall time.Duration
	// Least is how many bytes a second, on average, give a client more time. 0: any byte gives it the whole time again.
	Least int64
}

// A Watchdog closes a connection when its client lets the server wait for too long in one body or one response. Reads and
// writes of the connection then fail, and with HTTP/2 each stream of the connection ends.
//
// A client has the time Stall of its pace in all. What it sends or receives gives it more: a second for as many bytes as
// Least has, and never more than Stall in all. So a client that is as fast as Least is waited for as long as it takes, and
// single bytes help nobody for long. Between End and Begin no time passes: the server itself is at work then.
//
// Its methods may be called from several goroutines.
type Watchdog struct {
	conn net.Conn
	pace Pace

	mu    sync.Mutex
	timer *time.Timer // nil: it was never waited
	waits bool
	began time.Time     // when the server began to wait
	left  time.Duration // the time of the client then
}

// Watch returns a watchdog over the connection of the context, for one body or one response. It does nothing if the
// context has no connection, or if the pace has no Stall.
func Watch(ctx context.Context, pace Pace) *Watchdog {
	w := &Watchdog{pace: pace, left: pace.Stall}
	if c, ok := ctx.Value(connKey{}).(net.Conn); ok && pace.Stall > 0 {
		w.conn = c
	}
	return w
}

// Begin says that the server waits for the client from now on, until End.
func (w *Watchdog) Begin() {
	if w.conn == nil {
		return
	}
	w.mu.Lock()
	defer w.mu.Unlock()
	w.waits, w.began = true, time.Now()
	if w.timer == nil {
		w.timer = time.AfterFunc(w.left, w.expire)
		return
	}
	w.timer.Reset(w.left)
}

// End says that the server does not wait any more, and that the client has sent or received so many bytes. After it
// returns, the watchdog does not begin to close the connection.
func (w *Watchdog) End(n int) {
	if w.conn == nil {
		return
	}
	w.mu.Lock()
	defer w.mu.Unlock()
	if !w.waits {
		return
	}
	w.waits = false
	w.timer.Stop()
	w.left -= time.Since(w.began)
	switch {
	case n <= 0:
	case w.pace.Least <= 0:
		w.left = w.pace.Stall
	default:
		w.left += time.Duration(float64(n) / float64(w.pace.Least) * float64(time.Second))
	}
	if w.left > w.pace.Stall {
		w.left = w.pace.Stall
	}
	if w.left < 0 {
		w.left = 0
	}
}

// expire closes the connection if the time of its client is over.
func (w *Watchdog) expire() {
	if w.isOver() {
		Abort(w.conn)
	}
}

// isOver reports whether the connection must be closed. A timer that was set again may have run before.
func (w *Watchdog) isOver() bool {
	w.mu.Lock()
	defer w.mu.Unlock()
	return w.waits && time.Since(w.began) >= w.left
}

// Abort closes a connection at once. TLS would first send an alert, and wait for a client that does not receive it.
// Without SetLinger(0) the system would keep what the client did not receive, and try to send it for minutes.
func Abort(c net.Conn) {
	if secure, ok := c.(*tls.Conn); ok {
		c = secure.NetConn()
	}
	for below := c; ; {
		if tcp, ok := below.(interface{ SetLinger(int) error }); ok {
			_ = tcp.SetLinger(0) // if it fails, the close still frees the connection
			break
		}
		wrapper, ok := below.(interface{ NetConn() net.Conn })
		if !ok {
			break
		}
		below = wrapper.NetConn()
	}
	_ = c.Close()
}
