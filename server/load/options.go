package main

import (
	"errors"
	"flag"
	"fmt"
	"io"
	"net/url"
	"strconv"
	"strings"
	"time"
)

const (
	mostSeconds     = 60
	mostRounds      = 20
	mostConnections = 64
	mostServers     = 16
	mostWriters     = 16
	mostSize        = 1 << 30 // davserve and Apache accept no longer body unless they are configured to
)

// A kind is a kind of load.
type kind string

const (
	get       kind = "get"
	put       kind = "put"
	propfind0 kind = "propfind0"
	propfind1 kind = "propfind1"
	mixed     kind = "mixed"
)

var kinds = []kind{get, put, propfind0, propfind1, mixed}

// options says what is measured.
type options struct {
	duration    time.Duration // of one round of one server
	rounds      int
	connections []int
	kinds       []kind
	writers     int
	size        int64 // of one large file, which is measured instead of the kinds, or 0
	json        string
	servers     []server
}

// A server is where requests go to.
type server struct {
	name    string
	address string // 127.0.0.1:PORT
	base    string // the path of its root, without trailing slash
}

// parse reads the arguments. The message of an error is one line.
func parse(arguments []string, stderr io.Writer) (options, error) {
	o := options{connections: []int{1, 8, 64}, kinds: kinds}
	flags := flag.NewFlagSet("load", flag.ContinueOnError)
	flags.SetOutput(io.Discard)
	seconds := flags.Int("seconds", 3, "how long each round loads a server, at most 60")
	flags.IntVar(&o.rounds, "rounds", 3, "how many rounds, at most 20")
	flags.IntVar(&o.writers, "writers", 2, "how many connections PUT in mixed, at most 16")
	flags.Int64Var(&o.size, "size", 0, "measure a file of so many `bytes` instead of the kinds, at most 1073741824")
	flags.StringVar(&o.json, "json", "", "a `file` for the results as JSON")
	flags.Func("connections", "how many connections at once, a `list` of numbers of at most 64 (default 1,8,64)",
		func(text string) (err error) { o.connections, err = parseNumbers(text); return err })
	flags.Func("kinds", "a `list` of get, put, propfind0, propfind1 and mixed (default all)",
		func(text string) (err error) { o.kinds, err = parseKinds(text); return err })
	if err := flags.Parse(arguments); err != nil {
		if errors.Is(err, flag.ErrHelp) {
			fmt.Fprintln(stderr, "usage: load [flags] NAME=URL...")
			flags.SetOutput(stderr)
			flags.PrintDefaults()
		}
		return options{}, err
	}
	for _, text := range flags.Args() {
		s, err := parseServer(text)
		if err != nil {
			return options{}, err
		}
		o.servers = append(o.servers, s)
	}
	o.duration = time.Duration(*seconds) * time.Second
	return o, o.check(*seconds)
}

// check returns an error if a number is out of its bounds, or a server is missing or named twice.
func (o options) check(seconds int) error {
	bounds := []struct {
		name        string
		value, most int
	}{
		{"-seconds", seconds, mostSeconds}, {"-rounds", o.rounds, mostRounds},
		{"-writers", o.writers, mostWriters}, {"the number of servers", len(o.servers), mostServers},
	}
	for _, b := range bounds {
		if b.value < 1 || b.value > b.most {
			return fmt.Errorf("%s must be 1 to %d, not %d", b.name, b.most, b.value)
		}
	}
	if o.size < 0 || o.size > mostSize {
		return fmt.Errorf("-size must be 0 to %d, not %d", mostSize, o.size)
	}
	seen := map[string]bool{}
	for _, s := range o.servers {
		if seen[s.name] {
			return fmt.Errorf("two servers have the name %s", s.name)
		}
		seen[s.name] = true
	}
	return nil
}

func parseNumbers(text string) ([]int, error) {
	var numbers []int
	seen := map[int]bool{}
	for _, word := range strings.Split(text, ",") {
		n, err := strconv.Atoi(word)
		if err != nil || n < 1 || n > mostConnections || seen[n] {
			return nil, fmt.Errorf("each must be another number of 1 to %d", mostConnections)
		}
		seen[n] = true
		numbers = append(numbers, n)
	}
	return numbers, nil
}

func parseKinds(text string) ([]kind, error) {
	var chosen []kind
	seen := map[kind]bool{}
	for _, word := range strings.Split(text, ",") {
		k := kind(word)
		if !isKind(k) || seen[k] {
			return nil, fmt.Errorf("%q is no kind of load, or is twice in the list", word)
		}
		seen[k] = true
		chosen = append(chosen, k)
	}
	return chosen, nil
}

func isKind(k kind) bool {
	for _, known := range kinds {
		if k == known {
			return true
		}
	}
	return false
}

// parseServer reads NAME=URL. It accepts only URLs of this machine, so that nobody loads the server of another.
func parseServer(text string) (server, error) {
	name, address, found := strings.Cut(text, "=")
	if !found || name == "" || strings.ContainsAny(name, "|\n") {
		return server{}, fmt.Errorf("%q is not NAME=URL", text)
	}
	u, err := url.Parse(address)
	if err != nil {
		return server{}, fmt.Errorf("server %s: %w", name, err)
	}
	port, err := strconv.ParseUint(u.Port(), 10, 16)
	plain := u.Scheme == "http" && u.User == nil && u.RawQuery == "" && u.Fragment == ""
	if !plain || u.Hostname() != "127.0.0.1" || err != nil || port == 0 {
		return server{}, fmt.Errorf("server %s: the URL must be http://127.0.0.1:PORT and a path", name)
	}
	return server{name: name, address: u.Host, base: strings.TrimRight(u.EscapedPath(), "/")}, nil
}
