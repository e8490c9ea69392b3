// Package cors lets pages of named origins use a WebDAV server from a browser (the Fetch Standard, CORS protocol).
package cors

import (
	"errors"
	"fmt"
	"net/http"
	"net/url"
	"strings"
)

// What an allowed origin may do.
const (
	methods = "OPTIONS, GET, HEAD, PUT, PATCH, DELETE, MKCOL, COPY, MOVE, LOCK, UNLOCK, PROPFIND, PROPPATCH"

	requestFields = "Accept, Accept-Language, Authorization, Cache-Control, Content-Language, Content-Range, " +
		"Content-Type, Depth, Destination, If, If-Match, If-Modified-Since, If-None-Match, If-Range, " +
		"If-Unmodified-Since, Lock-Token, OC-Checksum, Overwrite, Pragma, Range, Timeout, User-Agent, X-OC-Mtime, " +
		"X-Requested-With, X-Update-Range"

	responseFields = "Accept-Ranges, Allow, Content-Length, Content-Location, Content-Range, Date, DAV, ETag, " +
		"Last-Modified, Location, Lock-Token, MS-Author-Via, Retry-After, WWW-Authenticate, X-OC-Mtime"

	maxAge = "600" // seconds
)

// New returns a handler that adds the header fields of CORS for the origins, and passes requests on to next.
//
// A preflight of one of the origins, an OPTIONS with Access-Control-Request-Method, is answered with 204 and not passed
// on: a browser sends no credentials with it. Requests of other origins, and their preflights, are passed on as they
// are. Each response that is passed on varies with Origin.
//
// An origin is scheme://host or scheme://host:port as a browser sends it, in lower case and without the scheme's
// default port. It is compared byte by byte. Without origins, New returns next.
func New(origins []string, next http.Handler) (http.Handler, error) {
	if len(origins) == 0 {
		return next, nil
	}
	h := &handler{origins: make(map[string]bool), next: next}
	for _, origin := range origins {
		if err := check(origin); err != nil {
			return nil, fmt.Errorf("origin %q: %w", origin, err)
		}
		h.origins[origin] = true
	}
	return h, nil
}

type handler struct {
	origins map[string]bool
	next    http.Handler
}

func (h *handler) ServeHTTP(w http.ResponseWriter, r *http.Request) {
	header := w.Header()
	header.Add("Vary", "Origin")
	origin := r.Header["Origin"]
	if len(origin) != 1 || !h.origins[origin[0]] {
		h.next.ServeHTTP(w, r)
		return
	}
	header.Set("Access-Control-Allow-Origin", origin[0])
	header.Set("Access-Control-Allow-Credentials", "true")
	if r.Method == http.MethodOptions && r.Header.Get("Access-Control-Request-Method") != "" {
		header.Set("Access-Control-Allow-Methods", methods)
		header.Set("Access-Control-Allow-Headers", requestFields)
		header.Set("Access-Control-Max-Age", maxAge)
		w.WriteHeader(http.StatusNoContent)
		return
	}
	header.Set("Access-Control-Expose-Headers", responseFields)
	h.next.ServeHTTP(w, r)
}

// check returns an error unless a browser may send the origin. It rejects null, which any page can send.
func check(origin string) error {
	u, err := url.Parse(origin)
	if err != nil {
		return err
	}
	switch {
	case u.Scheme == "" || u.Host == "" || u.Scheme+"://"+u.Host != origin:
		return errors.New("not scheme://host or scheme://host:port")
	case strings.ToLower(origin) != origin:
		return errors.New("not in lower case")
	case u.Hostname() == "" || strings.ContainsAny(origin, "*,\"'<> ") || !isASCII(origin):
		return errors.New("the host has a character that no browser sends")
	case strings.HasSuffix(u.Host, ":"),
		u.Scheme == "http" && u.Port() == "80",
		u.Scheme == "https" && u.Port() == "443":
		return errors.New("browsers leave out an empty or default port")
	}
	return nil
}

func isASCII(s string) bool {
	for i := 0; i < len(s); i++ {
		if s[i] <= ' ' || s[i] > '~' {
			return false
		}
	}
	return true
}
