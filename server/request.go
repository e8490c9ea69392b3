package davserve

import (
	"crypto/rand"
	"fmt"
	"net/http"
	"net/url"
	"strconv"
	"strings"
	"time"

	"davserve/internal/frame"
)

// passed are the header fields that the engine reads. Timeout and Content-Length are set by the host, and others go no
// further.
var passed = []string{
	"Content-Language", "Content-Range", "Content-Type", "Depth", "Destination", "If", "If-Match", "If-None-Match",
	"Lock-Token", "Oc-Checksum", "Overwrite", "User-Agent", "X-Update-Range",
}

// idleToken is the lock token of each request that creates no lock.
const idleToken = "urn:davserve:none"

// request returns the frame of a request, without a body.
func (h *Handler) request(r *http.Request) (*frame.Request, error) {
	request := &frame.Request{Method: r.Method, Path: pathOf(r), Principal: h.principal(r), Token: idleToken}
	for _, name := range passed {
		for _, value := range r.Header[name] {
			request.Fields = append(request.Fields, frame.Field{Name: strings.ToLower(name), Value: value})
		}
	}
	if r.Method == "LOCK" {
		token, err := newToken()
		if err != nil {
			return nil, err
		}
		request.Token = token
		timeout := cappedTimeout(r.Header.Get("Timeout"), h.options.MaxLock)
		request.Fields = append(request.Fields, frame.Field{Name: "timeout", Value: timeout})
	}
	return request, h.checkUnmodified(r, request)
}

// checkUnmodified refuses to change a file that has changed after If-Unmodified-Since (RFC 9110, section 13.1.4). The
// engine knows no conditions by date, so the host adds If-Match with the tag of the file that it has read.
func (h *Handler) checkUnmodified(r *http.Request, request *frame.Request) error {
	since, err := http.ParseTime(r.Header.Get("If-Unmodified-Since"))
	if err != nil || r.Header.Get("If-Match") != "" || request.Method == "PROPFIND" || request.Method == "OPTIONS" {
		return nil
	}
	file, _, err := h.look(r.Context(), request.Path, request.Principal)
	if err != nil || file == nil || file.Modified == nil || file.ETag == nil {
		return err
	}
	if time.Unix(int64(*file.Modified), 0).After(since) {
		return statusError(http.StatusPreconditionFailed)
	}
	request.Fields = append(request.Fields, frame.Field{Name: "if-match", Value: `"` + *file.ETag + `"`})
	return nil
}

// setLength sets the header field that says how long the body is.
func setLength(request *frame.Request, length int64) {
	field := frame.Field{Name: "content-length", Value: strconv.FormatInt(length, 10)}
	request.Fields = append(request.Fields, field)
}

// principal returns the user of a request, or nil.
func (h *Handler) principal(r *http.Request) *string {
	if name, ok := h.options.Principal(r); ok {
		return &name
	}
	return nil
}

// pathOf returns the path of a request as it is in its URL, percent-encoded.
func pathOf(r *http.Request) string {
	if path := r.URL.EscapedPath(); path != "" {
		return path
	}
	return "/"
}

// newToken returns a lock token that nobody can guess: a random UUID (RFC 9562, section 5.4).
func newToken() (string, error) {
	var b [16]byte
	if _, err := rand.Read(b[:]); err != nil {
		return "", fmt.Errorf("a lock token: %w", err)
	}
	b[6] = b[6]&0x0f | 0x40
	b[8] = b[8]&0x3f | 0x80
	return fmt.Sprintf("urn:uuid:%x-%x-%x-%x-%x", b[:4], b[4:6], b[6:8], b[8:10], b[10:]), nil
}

// cappedTimeout returns the header field Timeout of a lock (RFC 4918, section 10.7): the first time that the client
// asks for and that can be read, but no more than the greatest. Without one, and for Infinite, it is the greatest.
func cappedTimeout(asked string, greatest time.Duration) string {
	seconds := uint64(greatest / time.Second)
	for _, choice := range strings.Split(asked, ",") {
		choice = strings.ToLower(strings.TrimSpace(choice))
		if choice == "infinite" {
			break
		}
		digits := strings.TrimPrefix(choice, "second-")
		if n, err := strconv.ParseUint(digits, 10, 64); err == nil && digits != choice {
			if n < seconds {
				seconds = n
			}
			break
		}
	}
	return "Second-" + strconv.FormatUint(seconds, 10)
}

// checkDepth refuses a Depth that RFC 4918, section 10.2, does not define. The engine takes it for none.
func checkDepth(header http.Header) error {
	switch strings.ToLower(header.Get("Depth")) {
	case "", "0", "1", "infinity":
		return nil
	}
	return statusError(http.StatusBadRequest)
}

// checkDestination refuses a Destination on another host (RFC 4918, section 9.8.5), and one that is neither a URL with a
// host nor an absolute path. davd reads only its path.
func (h *Handler) checkDestination(r *http.Request) error {
	text := r.Header.Get("Destination")
	if text == "" || strings.HasPrefix(text, "/") && !strings.HasPrefix(text, "//") {
		return nil
	}
	destination, err := url.Parse(text)
	if err != nil || !destination.IsAbs() || destination.Host == "" {
		return statusError(http.StatusBadRequest)
	}
	host := plainHost(destination.Host)
	if host == plainHost(r.Host) || h.host != "" && host == h.host {
		return nil
	}
	return statusError(http.StatusBadGateway)
}

// checkSegments refuses a path or a Destination with more segments than the engine is given. What a request costs grows
// with their number, and each resource has the whole path as its name while it is listed.
func (h *Handler) checkSegments(r *http.Request) error {
	for _, text := range []string{r.URL.EscapedPath(), r.Header.Get("Destination")} {
		if segments(text) > h.options.MaxSegments {
			return statusError(http.StatusRequestURITooLong)
		}
	}
	return nil
}

// segments returns how many segments the path of a URL has. davd reads a backslash in a Destination as a slash.
func segments(text string) int {
	if _, after, ok := strings.Cut(text, "://"); ok && !strings.HasPrefix(text, "/") {
		_, text, _ = strings.Cut(after, "/")
	}
	return len(strings.FieldsFunc(text, func(r rune) bool { return r == '/' || r == '\\' }))
}

// plainHost returns a host in lower case and without the port of http or https. A proxy that ends TLS changes the
// scheme, so two URLs of this server may differ in it.
func plainHost(host string) string {
	host = strings.ToLower(host)
	host = strings.TrimSuffix(host, ":80")
	return strings.TrimSuffix(host, ":443")
}
