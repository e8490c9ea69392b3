// Load sends requests to WebDAV servers on this machine, and prints how fast each server answers.
//
//	load [-seconds 3] [-rounds 3] [-connections 1,8,64] [-kinds get,put,propfind0,propfind1,mixed]
//	     [-writers 2] [-json FILE] NAME=URL...
//	load -size BYTES [-rounds 3] [-json FILE] NAME=URL...
//
// It measures one kind of request and one number of connections after the other, and in each of these several rounds.
// A round loads each server for the given seconds, one server at a time, and each second round takes the servers in
// reverse order. So what else the machine does slows all servers alike. Before each measurement it waits until the disk
// has what was written before (sync).
//
//	get        GET of files of 1 KiB
//	put        PUT of 1 KiB onto existing files
//	propfind0  PROPFIND of a file, Depth 0, four properties
//	propfind1  PROPFIND of a collection of ten files, Depth 1, four properties
//	mixed      GET of 1 KiB on one connection, while other connections (-writers) PUT bodies of 20 MB
//
// With -size it measures a PUT of one file of that length, and then a GET, each on a connection of its own. The file is
// sent and compared in pieces, and then removed. "PUT and sync" is the time until sync returns after the PUT.
//
// It prints Markdown tables. A rate is the median of the rounds and counts only requests with a status of 2xx. The
// percentiles are of all rounds together, and the longest time is exact.
//
// Everything is below a collection load/ of each server, which must not exist before and is removed at the end. A URL
// is http://127.0.0.1:PORT with or without a path.
package main

import (
	"context"
	"errors"
	"flag"
	"fmt"
	"io"
	"os"
	"os/signal"
	"syscall"
)

func main() {
	o, err := parse(os.Args[1:], os.Stderr)
	if errors.Is(err, flag.ErrHelp) {
		os.Exit(0)
	}
	if err != nil {
		fmt.Fprintf(os.Stderr, "load: %v\n", err)
		os.Exit(2)
	}
	ctx, stop := signal.NotifyContext(context.Background(), os.Interrupt, syscall.SIGTERM)
	defer stop()
	if err := run(ctx, o, os.Stdout, os.Stderr); err != nil {
		fmt.Fprintf(os.Stderr, "load: %v\n", err)
		os.Exit(1)
	}
}

// run prepares the servers, measures them, and writes the report. What it created is removed also if
// it fails.
func run(ctx context.Context, o options, out, progress io.Writer) (err error) {
	for _, s := range o.servers {
		if err := prepare(s); err != nil {
			return err
		}
		defer func(s server) {
			if failed := remove(s); err == nil {
				err = failed
			}
		}(s)
	}
	measure, write := measureAll, writeTables
	if o.size > 0 {
		measure, write = measureLarge, writeLargeTable
	}
	rows, err := measure(ctx, o, progress)
	if err != nil {
		return err
	}
	if err := write(out, rows); err != nil {
		return err
	}
	if o.json == "" {
		return nil
	}
	return writeJSON(o, rows)
}
