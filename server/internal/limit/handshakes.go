package limit

import (
	"crypto/tls"
	"errors"
	"net"
	"sync"
	"time"

	"davserve/internal/share"
)

const (
	// handshakesAhead is how many handshakes a client may make at once that has made none for a while: a browser or a
	// program that copies many files opens dozens of connections.
	handshakesAhead = 100
	// handshakePatience is how long a handshake waits for its turn.
	handshakePatience = 5 * time.Second
	// handshakeClients is of how many clients it is known when they may make the next one.
	handshakeClients = 1 << 14
)

// errHandshakes fails a handshake whose turn would come too late.
var errHandshakes = errors.New("the client begins too many connections")

// Handshakes bounds how many handshakes of TLS a client makes in a second. One takes a processor for about a millisecond,
// which is more than most requests take. A client may make 100 at once. After that they wait for their turn, and one whose
// turn does not come within five seconds fails after that time: a client that connects again at once would cost as much.
// Connections of proxies have no bound, since they are those of many clients.
type Handshakes struct {
	pause    time.Duration // from one handshake to the next
	patience time.Duration
	keyOf    func(net.Conn) (key share.Key, isProxy bool)
	now      func() time.Time

	mu   sync.Mutex
	next map[share.Key]time.Time // when a client may make the next one, if it makes all as late as it must
}

// NewHandshakes returns bounds of so many handshakes a second, at least one. keyOf says whose a connection is.
func NewHandshakes(perSecond int, keyOf func(net.Conn) (share.Key, bool)) *Handshakes {
	return &Handshakes{
		pause: time.Second / time.Duration(perSecond), patience: handshakePatience,
		keyOf: keyOf, now: time.Now, next: make(map[share.Key]time.Time),
	}
}

// Await is for the field GetConfigForClient of a tls.Config: it waits for the turn of a handshake, before the server does
// anything for it.
func (h *Handshakes) Await(hello *tls.ClientHelloInfo) (*tls.Config, error) {
	key, isProxy := h.keyOf(hello.Conn)
	if isProxy {
		return nil, nil
	}
	wait, err := h.take(key)
	if wait <= 0 {
		return nil, err
	}
	timer := time.NewTimer(wait)
	defer timer.Stop()
	select {
	case <-timer.C:
		return nil, err
	case <-hello.Context().Done():
		return nil, hello.Context().Err()
	}
}

// take counts a handshake of a client, and returns how long it must wait. It does not count one that fails then.
func (h *Handshakes) take(key share.Key) (wait time.Duration, err error) {
	h.mu.Lock()
	defer h.mu.Unlock()
	now := h.now()
	turn := now.Add(-(handshakesAhead - 1) * h.pause)
	if next, isKnown := h.next[key]; isKnown && next.After(turn) {
		turn = next
	}
	if wait = turn.Sub(now); wait > h.patience {
		return h.patience, errHandshakes
	}
	if len(h.next) >= handshakeClients {
		h.forget(now)
	}
	h.next[key] = turn.Add(h.pause)
	return wait, nil
}

// forget forgets the clients that may make all handshakes at once again or, if all others have made some, all of them. The
// lock is held.
func (h *Handshakes) forget(now time.Time) {
	full := now.Add(-(handshakesAhead - 1) * h.pause)
	for key, next := range h.next {
		if !next.After(full) {
			delete(h.next, key)
		}
	}
	if len(h.next) >= handshakeClients {
		h.next = make(map[share.Key]time.Time)
	}
}
