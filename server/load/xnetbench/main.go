//go:build ignore

// Xnetbench serves the loads of tools/instructions by golang.org/x/net/webdav, to compare with: by its handler, over its
// own file system and lock system in memory, in this process and without a connection.
//
//	xnetbench LOAD COUNT            prints LOAD COUNT SECONDS REQUESTS_A_SECOND
//	xnetbench LOAD COUNT serve      serves the load without a clock, and prints LOAD COUNT REQUESTS
//	xnetbench LOAD COUNT prepare    stops before the first request of the load, and prints LOAD COUNT 0
//
// Without arguments it serves each load once, at a small count. The exit status is 1 if a response does not have the
// expected status.
//
// The module davserve does not need x/net, so this is built on its own, from Debian's golang-golang-x-net-dev:
//
//	GO111MODULE=off GOPATH=/usr/share/gocode go build -o xnetbench server/load/xnetbench/*.go
package main

import (
	"errors"
	"fmt"
	"os"
	"runtime"
	"runtime/debug"
	"strconv"
	"time"
)

// small is the count of each load in a run without arguments.
const small = 12

var errUsage = errors.New("usage: xnetbench [LOAD COUNT [serve|prepare]]")

func main() {
	err := run(os.Args[1:])
	if err == nil {
		return
	}
	fmt.Fprintln(os.Stderr, err)
	if errors.Is(err, errUsage) {
		os.Exit(2)
	}
	os.Exit(1)
}

func run(args []string) error {
	if len(args) == 0 {
		return serveEach()
	}
	if len(args) != 2 && len(args) != 3 {
		return errUsage
	}
	count, err := strconv.Atoi(args[1])
	if err != nil || count < 1 {
		return fmt.Errorf("%w: no count of requests: %s", errUsage, args[1])
	}
	l, ok := named(args[0])
	if !ok {
		return fmt.Errorf("%w: no such load: %s", errUsage, args[0])
	}
	switch {
	case len(args) == 2:
		return clock(l, count)
	case args[2] == "serve":
		return serve(l, count)
	case args[2] == "prepare":
		return prepare(l, count)
	}
	return errUsage
}

func named(name string) (load, bool) {
	for _, l := range loads {
		if l.name == name {
			return l, true
		}
	}
	return load{}, false
}

// prepared returns a server with what a load needs. The garbage collector waits meanwhile and then runs once. Otherwise
// two runs would differ by when it ran. It is as usual when the load is served.
func prepared(l load, count int) *server {
	percent := debug.SetGCPercent(-1)
	s := newServer()
	l.prepare(s, count)
	s.served = 0
	debug.SetGCPercent(percent)
	runtime.GC()
	return s
}

// clock serves a load, and prints how long it took.
func clock(l load, count int) error {
	s := prepared(l, count)
	start := time.Now()
	l.serve(s, count)
	seconds := time.Since(start).Seconds()
	if s.err == nil {
		fmt.Printf("%s %d %.6f %.0f\n", l.name, count, seconds, float64(s.served)/seconds)
	}
	return s.err
}

// serve serves a load, and prints how many requests it has.
func serve(l load, count int) error {
	s := prepared(l, count)
	l.serve(s, count)
	return report(l, count, s)
}

// prepare prepares what a load needs, and does not serve it.
func prepare(l load, count int) error {
	return report(l, count, prepared(l, count))
}

func report(l load, count int, s *server) error {
	if s.err == nil {
		fmt.Printf("%s %d %d\n", l.name, count, s.served)
	}
	return s.err
}

// serveEach serves each load at a small count.
func serveEach() error {
	for _, l := range loads {
		if err := serve(l, small); err != nil {
			return fmt.Errorf("%s: %w", l.name, err)
		}
	}
	return nil
}
