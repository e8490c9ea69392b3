package auth

import (
	"context"
	"encoding/base64"
	"errors"
	"fmt"
	"net/http"
	"net/netip"
	"runtime"
	"strconv"
	"strings"
	"time"

	"golang.org/x/crypto/bcrypt"

	"davserve/internal/caller"
)

// maxCredentials is how many bytes the value of Authorization may have.
const maxCredentials = 4096

var (
	errRepeated = errors.New("more than one Authorization")
	errNobody   = errors.New("no credentials, or wrong ones")
)

// Basic authenticates requests by name and password.
//
// A password is checked with bcrypt, which reads the first 72 bytes of it. If it is right, requests with it need no
// further check for 5 minutes, or until the line of the user in the file changes. At most half of the processors, at
// least one, check passwords at once. The check of an unknown name takes as long as that of a user. Requests with the
// same credentials that come at the same time share one check.
//
// Addresses that fail are delayed:
//
//   - A check that finds a wrong password or an unknown name is a failure of the client's address. IPv6 addresses
//     with the same first 64 bits count as one address. A request without credentials, or with malformed ones, is no
//     failure.
//   - An address is hot from its first failure until it has not failed for 15 minutes. Then its failures are
//     forgotten. A right password does not end this. There are at most 10,000 hot addresses: if another one fails,
//     the one that failed least recently is forgotten.
//   - A request from a hot address that needs a check waits before it: 0.25 seconds after one failure, 0.5 after two,
//     1 after three, 2 after four, and 4 after five or more. Several requests of an address wait side by side.
//   - At most maxDelayed requests wait, and at most a quarter of these (at least one) from one address. A further one
//     is 429 with Retry-After at once.
//   - If a request comes before its address is hot, and the address gets hot before the check begins, the request
//     waits or is 429 in the same way.
//   - Requests that share a check are delayed as the first of them, and a failure counts for the address of the
//     first.
//
// What waits for a processor is served in turn, and not in the order of its coming:
//
//   - First come addresses that are not hot. These have one processor for themselves if there are two or more.
//   - Of these, first comes the one whose network (24 bits of IPv4, or 48 of IPv6) and whose name together had the
//     fewest checks lately, and of two that had as many, the newest. It makes no difference whether there is a user of
//     the name.
//   - At most 1024 requests wait, each for at most 30 seconds. Others are 429 with Retry-After.
type Basic struct {
	users     *Users
	challenge string
	secret    *secret
	clock     clock
	cache     *cache
	delays    *delays
	flights   flights
	turns     *turns
	address   func(*http.Request) netip.Addr
	compare   func(hash, password []byte) error
}

// NewBasic returns a Basic for the users. Clients show the realm to people. maxDelayed is how many requests may wait
// for a delay at once, at least 1. It should be a small part of the requests that the server allows, because a
// request that waits counts as one of them.
func NewBasic(users *Users, realm string, maxDelayed int) (*Basic, error) {
	return newBasic(users, realm, maxDelayed, systemClock())
}

func newBasic(users *Users, realm string, maxDelayed int, clock clock) (*Basic, error) {
	if err := checkRealm(realm); err != nil {
		return nil, err
	}
	if maxDelayed < 1 {
		return nil, fmt.Errorf("%d requests may be delayed, less than 1", maxDelayed)
	}
	secret, err := newSecret()
	if err != nil {
		return nil, err
	}
	processors := runtime.NumCPU() / 2
	if processors < 1 {
		processors = 1
	}
	return &Basic{
		users:     users,
		challenge: "Basic realm=" + quoted(realm) + `, charset="UTF-8"`,
		secret:    secret,
		clock:     clock,
		cache:     newCache(clock.now),
		delays:    newDelays(maxDelayed, clock.now),
		flights:   flights{calls: make(map[key]*call)},
		turns:     newTurns(processors, clock.now),
		address:   func(r *http.Request) netip.Addr { return caller.Parse(r.RemoteAddr) },
		compare:   bcrypt.CompareHashAndPassword,
	}, nil
}

// SetAddress has a function say which address a request comes from, such as the one that a proxy names. Without it, it is
// the one at the other end of the connection.
func (b *Basic) SetAddress(address func(*http.Request) netip.Addr) { b.address = address }

// Handler returns a handler that passes the requests of users to next, without their Authorization. Others are 401, or
//
//   - 400 if they have Authorization more than once
//   - 429 if too many requests are delayed
//   - 503 if their context ends while they wait
func (b *Basic) Handler(next http.Handler) http.Handler {
	return http.HandlerFunc(func(w http.ResponseWriter, r *http.Request) {
		name, err := b.authenticate(r)
		if err != nil {
			b.refuse(w, err)
			return
		}
		r = r.WithContext(WithUser(r.Context(), name))
		r.Header = r.Header.Clone()
		r.Header.Del("Authorization")
		next.ServeHTTP(w, r)
	})
}

// refuse answers a request that could not be authenticated.
func (b *Basic) refuse(w http.ResponseWriter, err error) {
	var busy *busyError
	switch {
	case errors.Is(err, errNobody):
		w.Header().Set("WWW-Authenticate", b.challenge)
		fail(w, http.StatusUnauthorized)
	case errors.Is(err, errRepeated):
		fail(w, http.StatusBadRequest)
	case errors.As(err, &busy):
		seconds := (busy.after + time.Second - 1) / time.Second
		w.Header().Set("Retry-After", strconv.Itoa(int(seconds)))
		fail(w, http.StatusTooManyRequests)
	default:
		fail(w, http.StatusServiceUnavailable)
	}
}

// authenticate returns the name of the request's user.
func (b *Basic) authenticate(r *http.Request) (string, error) {
	values := r.Header["Authorization"]
	if len(values) > 1 {
		return "", errRepeated
	}
	if len(values) == 0 {
		return "", errNobody
	}
	name, password, ok := parseBasic(values[0])
	if !ok {
		return "", errNobody
	}
	ok, err := b.verify(r.Context(), caller.Network(b.address(r)), name, password)
	if err != nil {
		return "", err
	}
	if !ok {
		return "", errNobody
	}
	return name, nil
}

// verify reports whether the password is that of the user.
func (b *Basic) verify(ctx context.Context, address netip.Prefix, name, password string) (bool, error) {
	var draw [8]byte
	named := b.secret.key(name)
	copy(draw[:], named[:])
	hash, known := b.users.current().find(name, draw)
	k := b.secret.key(name, password, hash)
	if b.cache.has(k) {
		return true, nil
	}
	wait, leave, err := b.delays.enter(address)
	if err != nil {
		return false, err
	}
	defer leave()
	return b.flights.do(ctx, k, func(ctx context.Context) (bool, error) {
		if b.cache.has(k) { // another call ended since
			return true, nil
		}
		if err := b.turn(ctx, attempt{address, named}, wait); err != nil {
			return false, err
		}
		defer b.turns.release()
		err := b.compare([]byte(hash), []byte(password))
		if err != nil || !known {
			b.delays.failed(address)
			return false, nil
		}
		b.cache.add(k)
		return true, nil
	})
}

// An attempt is who tries a password, and of which name.
type attempt struct {
	address netip.Prefix
	name    key
}

// turn waits for the delay of an attempt and for a processor. wait is the delay that its address had when it came.
func (b *Basic) turn(ctx context.Context, by attempt, wait time.Duration) error {
	if wait > 0 {
		return b.acquireAfter(ctx, by, wait)
	}
	if err := b.turns.acquire(ctx, by.address, by.name, false); err != nil {
		return err
	}
	wait, leave, err := b.delays.enter(by.address)
	if err != nil {
		b.turns.release()
		return err
	}
	defer leave()
	if wait == 0 {
		return nil
	}
	b.turns.release()
	return b.acquireAfter(ctx, by, wait)
}

func (b *Basic) acquireAfter(ctx context.Context, by attempt, wait time.Duration) error {
	if err := b.clock.sleep(ctx, wait); err != nil {
		return err
	}
	return b.turns.acquire(ctx, by.address, by.name, true)
}

// parseBasic returns the name and the password in the value of Authorization. Both must be UTF-8 without control
// characters (RFC 7617, section 2). The scheme is in any case, and the password may have colons.
func parseBasic(value string) (name, password string, ok bool) {
	scheme, token, ok := strings.Cut(value, " ")
	if !ok || !strings.EqualFold(scheme, "Basic") || len(value) > maxCredentials || strings.ContainsAny(token, "\r\n") {
		return "", "", false
	}
	decoded, err := base64.StdEncoding.Strict().DecodeString(strings.TrimLeft(token, " "))
	if err != nil {
		return "", "", false
	}
	name, password, ok = strings.Cut(string(decoded), ":")
	if !ok || checkName(name) != nil || !isText(password) {
		return "", "", false
	}
	return name, password, true
}
