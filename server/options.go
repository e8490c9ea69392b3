package davserve

import (
	"errors"
	"fmt"
	"log"
	"math"
	"net/http"
	"net/url"
	"path/filepath"
	"strings"
	"time"

	"davserve/internal/clock"
	"davserve/internal/davd"
)

// Options say how a Handler serves. The zero value of each field but Davd is a usable default.
type Options struct {
	// Davd is the path of the program davd, or its name, which is then looked up in PATH.
	Davd string
	// Folder is where davd keeps everything. Empty: davd holds everything in memory.
	Folder string
	// AcceptLoss serves a folder whose database has lost its last changes, as after a restore that was not complete.
	// Without it such a folder is refused.
	AcceptLoss bool
	// Prefix is what the path of each URL begins with, such as "/dav". The handler gets requests with the prefix.
	Prefix string
	// PublicURL is the URL by which clients reach the server, if a proxy changes the header field Host. A Destination
	// on its host is on this server.
	PublicURL string
	// Principal returns the authenticated user of a request, and false if there is none. Nil: there is never one.
	// Requests without a user can use each other's locks.
	Principal func(*http.Request) (string, bool)
	// Client returns who has sent a request, for the shares of clients. Nil: its user or, without one, the address at the
	// other end of its connection, of IPv6 the first 64 bits.
	Client func(*http.Request) string
	// ClientShare is the percentage of each limit for all that one client may use, of what the others leave. 0: 50.
	ClientShare int
	// XMLMemory is how much memory all requests together may use for XML bodies and for lists of members. 0: 512 MiB.
	XMLMemory int64
	// MaxUploads is how many bytes the bodies of all PUT and PATCH under way may have together. 0: 64 times MaxBody and,
	// without a folder, no more than Memory.
	MaxUploads int64
	// Rights is the text of the access rules in TOML. Empty: none, and each user may do everything. To allow nothing at
	// all, use a text with a line end.
	Rights string
	// MaxBody is how many bytes the body of a PUT or PATCH may have, and how far from the start of a file a PATCH may
	// begin. 0: 1 GiB.
	MaxBody int64
	// MaxXML is how many bytes an XML body may have. 0: 1 MiB.
	MaxXML int64
	// MaxLock is the longest time until a lock expires. 0: ten minutes, which is also the longest time that davd
	// gives to an exclusive lock.
	MaxLock time.Duration
	// MaxInfinity is how many resources a PROPFIND of Depth infinity may concern. 0: none, and the response to one for
	// a collection is 403.
	MaxInfinity int
	// MaxSegments is how many segments the path of a request may have, and that of a Destination. 0: 512. Collections can
	// be nested more deeply by COPY and MOVE, and are then reached from above.
	MaxSegments int
	// Quota is how many bytes all files may have together. 0: no limit, and over a folder the available bytes that clients
	// read are those that are free on its file system.
	Quota int64
	// Memory is how many bytes the address space of davd may have. When they are used up, requests fail with 507. 0: no
	// limit; fewer than 16 MiB are refused, because davd may not start with them. Over a folder it applies once the folder
	// is loaded, and davd may have four times as many before. If it has more after that, each request that may add
	// something fails with 507. On Linux a sixteenth is for what frees memory, such as a DELETE.
	Memory int64
	// StallTimeout is how long a client may take to send or to receive a part of a body. 0: one minute. It needs
	// ConnContext in the http.Server.
	StallTimeout time.Duration
	// LeastRate is how many bytes a second a client must send of a body, on average, once it has let the server wait for
	// StallTimeout in all. 0: it must send something within each StallTimeout.
	LeastRate int64
	// HangTimeout is how long davd may stand still with a request: it does not run, and waits neither for a processor nor for
	// a disk, as when somebody has stopped it. Then it is killed and started again. 0: two minutes. On other systems than
	// Linux it is not killed.
	HangTimeout time.Duration
	// MaxClockChange is how far the clock of the machine may be from the last time of a folder: New fails if it is further
	// away. A clock that jumps further while the handler serves is not followed. 0: ten years.
	MaxClockChange time.Duration
	// Log gets a line when davd hangs or ends, a response breaks off, or the clock of the machine jumps. Nil: the standard
	// logger.
	Log *log.Logger

	machine func() clock.Reading // the clocks of the machine; nil: those of this one
}

const (
	defaultMaxBody      = 1 << 30
	defaultMaxXML       = 1 << 20
	defaultXMLMemory    = 512 << 20
	defaultMaxSegments  = 512
	defaultShare        = 50
	uploadsOfMaxBody    = 64
	defaultMaxLock      = 10 * time.Minute
	defaultStallTimeout = time.Minute

	leastHang   = time.Second // a davd that waits for the rest of a batch stands still, too
	leastMemory = 16 << 20    // a davd that cannot load itself is ended by a signal, and cannot say why
)

// complete returns the options with their defaults, or says which one is wrong.
func (o Options) complete() (Options, error) {
	if o.Davd == "" {
		return o, errors.New("the program davd is not named")
	}
	if err := checkPrefix(o.Prefix); err != nil {
		return o, err
	}
	if o.Folder != "" {
		folder, err := filepath.Abs(o.Folder) // So that it does not look like an option of davd.
		if err != nil {
			return o, fmt.Errorf("the folder: %w", err)
		}
		o.Folder = folder
	}
	for _, n := range o.limits() {
		if n < 0 {
			return o, fmt.Errorf("a limit is negative: %d", n)
		}
	}
	if 0 < o.Memory && o.Memory < leastMemory {
		return o, fmt.Errorf("davd needs more memory than %d bytes: at least %d", o.Memory, leastMemory)
	}
	if o.ClientShare < 0 || o.ClientShare > 100 {
		return o, fmt.Errorf("the share of a client is not 1 to 100 percent: %d", o.ClientShare)
	}
	if o.HangTimeout != 0 && o.HangTimeout < leastHang {
		return o, fmt.Errorf("davd would be killed after standing still for %v: at least %v", o.HangTimeout, leastHang)
	}
	if o.MaxLock < 0 || o.StallTimeout < 0 || o.MaxClockChange < 0 {
		return o, errors.New("a time is negative")
	}
	setDefault(&o.MaxBody, defaultMaxBody)
	setDefault(&o.MaxXML, defaultMaxXML)
	setDefault(&o.MaxSegments, defaultMaxSegments)
	setDefault(&o.XMLMemory, defaultXMLMemory)
	setDefault(&o.ClientShare, defaultShare)
	setDefault(&o.MaxUploads, o.defaultUploads())
	setDefault(&o.MaxLock, defaultMaxLock)
	setDefault(&o.StallTimeout, defaultStallTimeout)
	setDefault(&o.HangTimeout, davd.DefaultHangTimeout)
	setDefault(&o.MaxClockChange, clock.MaxChange)
	if o.Log == nil {
		o.Log = log.Default()
	}
	if o.Principal == nil {
		o.Principal = func(*http.Request) (string, bool) { return "", false }
	}
	return o, nil
}

// limits returns the limits that are numbers.
func (o Options) limits() []int64 {
	return []int64{
		o.MaxBody, o.MaxXML, int64(o.MaxInfinity), int64(o.MaxSegments), o.Quota, o.Memory, o.LeastRate, o.XMLMemory,
		o.MaxUploads,
	}
}

// defaultUploads returns how many bytes may be under way. Without a folder davd has them in its memory.
func (o Options) defaultUploads() int64 {
	uploads := int64(math.MaxInt64)
	if o.MaxBody < math.MaxInt64/uploadsOfMaxBody {
		uploads = uploadsOfMaxBody * o.MaxBody
	}
	if o.Folder == "" && 0 < o.Memory && o.Memory < uploads {
		return o.Memory
	}
	return uploads
}

func setDefault[T comparable](value *T, standard T) {
	var zero T
	if *value == zero {
		*value = standard
	}
}

// checkPrefix refuses a prefix that no path of a URL can have as davd compares them.
func checkPrefix(prefix string) error {
	if prefix == "" {
		return nil
	}
	if !strings.HasPrefix(prefix, "/") || strings.HasSuffix(prefix, "/") {
		return fmt.Errorf("the prefix %q does not begin with a slash, or ends with one", prefix)
	}
	for _, segment := range strings.Split(prefix[1:], "/") {
		if segment == "" || segment == "." || segment == ".." || url.PathEscape(segment) != segment {
			return fmt.Errorf("the prefix %q has an empty segment, or one that a URL escapes", prefix)
		}
	}
	return nil
}

// publicHost returns the host of the public URL, or "" if there is none.
func publicHost(text, prefix string) (string, error) {
	if text == "" {
		return "", nil
	}
	public, err := url.Parse(text)
	if err != nil {
		return "", fmt.Errorf("the public URL: %w", err)
	}
	if public.Scheme != "http" && public.Scheme != "https" || public.Host == "" {
		return "", fmt.Errorf("the public URL %q is not one of http or https", text)
	}
	if path := strings.TrimSuffix(public.Path, "/"); path != "" && path != prefix {
		return "", fmt.Errorf("the path of the public URL %q is not the prefix %q", text, prefix)
	}
	return plainHost(public.Host), nil
}
