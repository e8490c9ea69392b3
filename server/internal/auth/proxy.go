package auth

import (
	"errors"
	"fmt"
	"net/http"
	"net/netip"
	"strings"

	"davserve/internal/caller"
)

// Proxy authenticates requests by a header field that a proxy sets. It is as safe as the proxy: nobody else may connect
// from its address, and it must remove the header field from the requests that it gets.
type Proxy struct {
	field     string
	from      caller.Proxies
	challenge string
}

// NewProxy returns a Proxy that reads the name of the user in a header field, of requests from the addresses.
func NewProxy(field string, from []netip.Prefix, realm string) (*Proxy, error) {
	if !isToken(field) {
		return nil, fmt.Errorf("%q is not the name of a header field", field)
	}
	if len(from) == 0 {
		return nil, errors.New("a header field with the user needs the address of a proxy")
	}
	for _, prefix := range from {
		if !prefix.IsValid() {
			return nil, errors.New("the address of a proxy is not valid")
		}
	}
	if err := checkRealm(realm); err != nil {
		return nil, err
	}
	// The proxy asks for credentials. RFC 9110 wants a challenge with each 401 all the same. This one is not a scheme
	// that a client could try.
	return &Proxy{
		field:     http.CanonicalHeaderKey(field),
		from:      append(caller.Proxies(nil), from...),
		challenge: "External realm=" + quoted(realm),
	}, nil
}

// Handler returns a handler that passes requests of users to next. It answers a request with
//
//   - 403 if it does not come from one of the addresses
//   - 401 if its header field is missing or empty
//   - 400 if its header field is there more than once, has more than 256 bytes, is not UTF-8 or has a control character
func (p *Proxy) Handler(next http.Handler) http.Handler {
	return http.HandlerFunc(func(w http.ResponseWriter, r *http.Request) {
		values := r.Header[p.field]
		switch {
		case !p.from.Has(caller.Parse(r.RemoteAddr)):
			fail(w, http.StatusForbidden)
		case len(values) > 1:
			fail(w, http.StatusBadRequest)
		case len(values) == 0 || strings.TrimSpace(values[0]) == "":
			w.Header().Set("WWW-Authenticate", p.challenge)
			fail(w, http.StatusUnauthorized)
		case checkName(values[0]) != nil:
			fail(w, http.StatusBadRequest)
		default:
			next.ServeHTTP(w, r.WithContext(WithUser(r.Context(), values[0])))
		}
	})
}

// isToken reports whether s is a token (RFC 9110, section 5.6.2).
func isToken(s string) bool {
	const marks = "!#$%&'*+-.^_`|~"
	for i := 0; i < len(s); i++ {
		c := s[i]
		if !('A' <= c && c <= 'Z' || 'a' <= c && c <= 'z' || '0' <= c && c <= '9' || strings.IndexByte(marks, c) >= 0) {
			return false
		}
	}
	return s != ""
}
