package main

import (
	"errors"
	"flag"
	"fmt"
	"io"
	"net"
	"net/netip"
	"os"
	"path/filepath"
	"strings"
	"time"

	"davserve"
	"davserve/internal/clock"
	"davserve/internal/davd"
	"davserve/internal/size"
)

// A config is what the command line says.
type config struct {
	options davserve.Options

	listen         string
	metrics        string
	socket         string
	users          string
	rights         string
	realm          string
	userHeader     string
	trustedProxies prefixes
	plainPasswords bool
	anonymous      bool
	cert, key      string
	selfSigned     bool
	corsOrigins    texts
	hosts          texts
	http2          bool
	maxConnections int
	maxRequests    int
	handshakes     int

	headerTimeout   time.Duration
	idleTimeout     time.Duration
	shutdownTimeout time.Duration
	version         bool
}

// texts is a flag that may be given more than once.
type texts []string

// String implements flag.Value.
func (t *texts) String() string { return strings.Join(*t, " ") }

// Set implements flag.Value.
func (t *texts) Set(text string) error {
	*t = append(*t, text)
	return nil
}

// check returns the error of the first text that has one.
func (t texts) check(check func(string) error) error {
	for _, text := range t {
		if err := check(text); err != nil {
			return fmt.Errorf("%q: %w", text, err)
		}
	}
	return nil
}

// prefixes is a flag of networks that may be given more than once.
type prefixes []netip.Prefix

// String implements flag.Value.
func (p *prefixes) String() string { return fmt.Sprint([]netip.Prefix(*p)) }

// Set implements flag.Value.
func (p *prefixes) Set(text string) error {
	prefix, err := netip.ParsePrefix(text)
	if err != nil {
		return err
	}
	*p = append(*p, prefix)
	return nil
}

const usage = `usage: davserve [OPTIONS]
       davserve backup [-folder FOLDER | -socket PATH] TARGET
       davserve check [-folder FOLDER | -socket PATH] [-rate SIZE] [-quiet]
       davserve locks list [-folder FOLDER | -socket PATH] [-json]
       davserve locks remove [-folder FOLDER | -socket PATH] TOKEN...
       davserve import -folder FOLDER [-davd PROGRAM] [-quiet] DIR [PATH]
       davserve export -folder FOLDER [-davd PROGRAM] [-quiet] DIR [PATH]
       davserve rights check [-davd PROGRAM] FILE USER PATH
       davserve setup -user NAME [OPTIONS]

The first serves WebDAV, with these options. The others are for who runs a server:

  backup  makes a backup of what a server keeps in its folder, while it serves
  check   has a server that runs read all its files, and names those that are damaged
  locks   lists the locks of a server that runs, and removes some
  import  copies files into the folder of a server that is stopped
  export  copies files out of the folder of a server that is stopped
  rights  says what access rules allow
  setup   sets up the service: a user, access rules, a certificate and options

Each has a help of its own, such as davserve backup -h.

`

// parse reads the command line. What is wrong with it, or the help that it asks for, is written to the output.
func parse(arguments []string, output io.Writer) (config, error) {
	c := config{options: davserve.Options{MaxBody: 1 << 30, MaxXML: 1 << 20, Memory: 1 << 30, XMLMemory: 512 << 20, LeastRate: 100}}
	flags := c.flags(output)
	if err := flags.Parse(arguments); err != nil {
		return c, err
	}
	err := c.check(flags.Args())
	if err != nil {
		fmt.Fprintf(output, "davserve: %v\n", err)
	}
	return c, err
}

// flags returns the options.
func (c *config) flags(output io.Writer) *flag.FlagSet {
	flags := flag.NewFlagSet("davserve", flag.ContinueOnError)
	flags.SetOutput(output)
	flags.Usage = func() {
		fmt.Fprint(output, usage)
		flags.PrintDefaults()
	}
	c.addServing(flags)
	c.addUsers(flags)
	c.addLimits(flags)
	return flags
}

func (c *config) addServing(flags *flag.FlagSet) {
	flags.StringVar(&c.listen, "listen", "127.0.0.1:8080", "`address` to listen on")
	flags.StringVar(&c.options.Davd, "davd", "", "the `program` davd (default: beside this program, or in PATH)")
	flags.Func("folder", "`folder` in which everything is kept (default: none, and everything is in memory)",
		notEmpty(&c.options.Folder))
	flags.BoolVar(&c.options.AcceptLoss, "accept-loss", false, "serve a folder that has lost its last changes")
	flags.Func("socket", "`path` of the socket for davserve backup, check and locks (default: control in the folder)",
		notEmpty(&c.socket))
	flags.StringVar(&c.options.Prefix, "prefix", "", "what the path of each URL begins with, such as /dav")
	flags.StringVar(&c.options.PublicURL, "public-url", "", "the `URL` by which clients reach a server behind a proxy")
	flags.StringVar(&c.cert, "cert", "", "`file` with the certificates for TLS, in PEM")
	flags.StringVar(&c.key, "key", "", "`file` with the key for TLS, in PEM")
	flags.BoolVar(&c.selfSigned, "tls-self-signed", false, "speak TLS with a certificate that is made at the start")
	flags.BoolVar(&c.http2, "http2", true, "speak HTTP/2 with TLS")
	flags.Var(&c.hosts, "host", "a `name` by which clients reach a server without users on the loopback (repeatable)")
	flags.StringVar(&c.metrics, "metrics", "", "`address` at which Prometheus gets metrics (default: none)")
	flags.Var(&c.corsOrigins, "cors-origin", "`origin` whose pages may use the server (repeatable)")
	flags.BoolVar(&c.version, "version", false, "print the version and end")
}

// notEmpty sets the name of a file or a folder. An empty one would be none: a script with an empty variable would lose
// all files.
func notEmpty(name *string) func(string) error {
	return func(value string) error {
		if value == "" {
			return errors.New("the name is empty")
		}
		*name = value
		return nil
	}
}

// socketIn returns the path of the socket of a server over a folder.
func socketIn(folder string) string {
	return filepath.Join(folder, "control")
}

func (c *config) addUsers(flags *flag.FlagSet) {
	flags.StringVar(&c.users, "users", "", "htpasswd `file` with the users; its passwords are hashed by bcrypt")
	flags.Func("rights", "`file` with the access rules, which SIGHUP has read again (default: each user may do everything)",
		notEmpty(&c.rights))
	flags.StringVar(&c.realm, "realm", "davserve", "what clients show when they ask for a password")
	flags.StringVar(&c.userHeader, "user-header", "", "`name` of the header field in which a proxy passes the user")
	flags.Var(&c.trustedProxies, "trusted-proxy", "`network` of proxies, such as 10.0.0.0/8 (repeatable)")
	flags.BoolVar(&c.plainPasswords, "plain-passwords", false, "allow -users without TLS on a network")
	flags.BoolVar(&c.anonymous, "anonymous", false, "allow to serve everyone on a network")
}

// clockUsage is the help of -max-clock-change.
const clockUsage = "greatest `time` from the last change in the folder to the clock of the machine"

func (c *config) addLimits(flags *flag.FlagSet) {
	o := &c.options
	flags.Var((*size.Size)(&o.MaxBody), "max-body", "greatest `size` of the body of a PUT or PATCH")
	flags.Var((*size.Size)(&o.MaxXML), "max-xml", "greatest `size` of an XML body")
	flags.Var((*size.Size)(&o.Quota), "quota", "greatest `size` of all files together; 0: no limit")
	flags.Var((*size.Size)(&o.Memory), "memory", "greatest `size` of the memory of davd; 0: no limit")
	flags.DurationVar(&o.MaxLock, "max-lock", 10*time.Minute, "longest time until a lock expires")
	flags.DurationVar(&o.MaxClockChange, "max-clock-change", clock.MaxChange, clockUsage)
	flags.IntVar(&o.MaxInfinity, "max-infinity", 0, "greatest `number` of resources in a PROPFIND of Depth infinity")
	flags.IntVar(&o.MaxSegments, "max-segments", 512, "greatest `number` of segments of a path")
	flags.IntVar(&o.ClientShare, "client-share", 50, "`percentage` of each limit for all that one client may use")
	flags.Var((*size.Size)(&o.MaxUploads), "max-uploads", "greatest `size` of all uploads under way (default 64 times -max-body)")
	flags.Var((*size.Size)(&o.XMLMemory), "xml-memory", "greatest `size` of the memory for XML and lists of members")
	flags.Var((*size.Size)(&o.LeastRate), "least-rate", "`bytes` a second that a client must send or receive; 0: any")
	flags.IntVar(&c.maxConnections, "max-connections", 1024, "greatest `number` of open connections")
	flags.IntVar(&c.maxRequests, "max-requests", 256, "greatest `number` of requests at once")
	flags.IntVar(&c.handshakes, "max-handshakes", 50, "greatest `number` of handshakes of TLS a second of one address; 0: any")
	flags.DurationVar(&c.headerTimeout, "header-timeout", 20*time.Second, "time for the header of a request")
	flags.DurationVar(&c.idleTimeout, "idle-timeout", 2*time.Minute, "time until an idle connection is closed")
	flags.DurationVar(&o.StallTimeout, "stall-timeout", time.Minute, "time that a body or a response may wait for its client")
	flags.DurationVar(&o.HangTimeout, "hang-timeout", davd.DefaultHangTimeout, "time until a davd that stands still is killed")
	flags.DurationVar(&c.shutdownTimeout, "shutdown-timeout", 10*time.Second, "time for requests under way at the end")
}

// mostHandshakes is the greatest bound of handshakes a second.
const mostHandshakes = 1_000_000

// check refuses what cannot be meant, and what is not safe.
func (c *config) check(rest []string) error {
	switch {
	case len(rest) > 0:
		return fmt.Errorf("unknown argument %q", rest[0])
	case (c.cert == "") != (c.key == ""):
		return errors.New("-cert and -key need each other")
	case c.cert != "" && c.selfSigned:
		return errors.New("-cert and -tls-self-signed exclude each other")
	case c.users != "" && c.userHeader != "":
		return errors.New("-users and -user-header exclude each other")
	case c.userHeader != "" && len(c.trustedProxies) == 0:
		return errors.New("-user-header needs -trusted-proxy")
	case c.options.ClientShare < 1 || c.options.ClientShare > 100:
		return errors.New("-client-share is 1 to 100")
	case c.options.MaxSegments < 1:
		return errors.New("-max-segments is at least 1")
	case c.options.XMLMemory < 1:
		return errors.New("-xml-memory is more than 0")
	case c.maxConnections < 1 || c.maxRequests < 1:
		return errors.New("-max-connections and -max-requests are at least 1")
	case c.handshakes < 0 || c.handshakes > mostHandshakes:
		return fmt.Errorf("-max-handshakes is 0 to %d", mostHandshakes)
	case c.headerTimeout <= 0 || c.idleTimeout <= 0 || c.shutdownTimeout <= 0 || c.options.StallTimeout <= 0:
		return errors.New("a timeout is more than 0")
	case c.hosts.check(checkName) != nil:
		return fmt.Errorf("-host: %w", c.hosts.check(checkName))
	case c.options.MaxClockChange <= 0:
		return errors.New("-max-clock-change is more than 0")
	case c.options.HangTimeout < time.Second:
		return errors.New("-hang-timeout is at least one second")
	case c.options.MaxLock < time.Second:
		return errors.New("-max-lock is at least one second")
	}
	return c.checkNetwork()
}

// checkNetwork refuses to show passwords, or the files, to a network by mistake.
func (c *config) checkNetwork() error {
	isLocal, err := isLoopback(c.listen)
	if err != nil || isLocal {
		return err
	}
	if c.users == "" && c.userHeader == "" && !c.anonymous {
		return fmt.Errorf("%s can be reached by others: it needs -users, -user-header or -anonymous", c.listen)
	}
	if c.users != "" && !c.hasTLS() && !c.plainPasswords {
		return fmt.Errorf("%s can be reached by others: passwords need -cert and -key, -tls-self-signed or -plain-passwords", c.listen)
	}
	return nil
}

// isLoopback reports whether only this machine can reach an address.
func isLoopback(address string) (bool, error) {
	host, _, err := net.SplitHostPort(address)
	if err != nil {
		return false, fmt.Errorf("the address %q: %w", address, err)
	}
	if host == "localhost" {
		return true, nil
	}
	ip, err := netip.ParseAddr(host)
	return err == nil && ip.IsLoopback(), nil
}

// defaultDavd returns the program davd beside this one, if there is one, or its name.
func defaultDavd() string {
	if self, err := os.Executable(); err == nil {
		beside := filepath.Join(filepath.Dir(self), "davd")
		if _, err := os.Stat(beside); err == nil {
			return beside
		}
	}
	return "davd"
}
