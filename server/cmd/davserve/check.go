package main

import (
	"context"
	"errors"
	"flag"
	"fmt"
	"io"
	"sync/atomic"
	"time"

	"davserve"
	"davserve/internal/control"
	"davserve/internal/size"
)

const fileCheckUsage = `usage: davserve check [-folder FOLDER | -socket PATH] [-rate SIZE] [-quiet]

Has a server that runs read every file in its folder, while it serves, and verify that
each is what was stored. Prints the path of each file that is damaged.

`

const fileCheckStatuses = `
exit status: 0 if every file was read and is right; 1 if one is damaged; 2 for a wrong
command line; 3 if it could not be done, was interrupted, or could not read something;
4 if only files that changed each time that they were read are left
`

// The exit statuses of davserve check.
const (
	checkRight     = 0
	checkDamaged   = 1
	checkWrongLine = 2
	checkNotDone   = 3
	checkChanged   = 4
)

// defaultRate is how many bytes a second are read without -rate.
const defaultRate = 32 << 20

// A fileCheckConfig is what the command line of davserve check says.
type fileCheckConfig struct {
	socket string
	rate   int64
	quiet  bool
}

// runFileCheck checks all files. It returns the exit status.
func runFileCheck(ctx context.Context, arguments []string, output, errorOutput io.Writer) int {
	c, err := parseFileCheck(arguments, errorOutput)
	switch {
	case errors.Is(err, flag.ErrHelp):
		return checkRight
	case err != nil:
		return checkWrongLine
	}
	return (&checking{config: c, output: output, screen: newScreen(errorOutput, c.quiet)}).run(ctx)
}

// parseFileCheck reads the command line of davserve check. What is wrong with it, or the help that it asks for, is written to
// the output.
func parseFileCheck(arguments []string, output io.Writer) (fileCheckConfig, error) {
	var c fileCheckConfig
	var server address
	rate := size.Size(defaultRate)
	flags := flag.NewFlagSet("davserve check", flag.ContinueOnError)
	flags.SetOutput(output)
	flags.Usage = func() {
		fmt.Fprint(output, fileCheckUsage)
		flags.PrintDefaults()
		fmt.Fprint(output, fileCheckStatuses)
	}
	server.add(flags)
	flags.Var(&rate, "rate", "how much is read in a second at most; 0: as much as davd reads in half of the time (`size`)")
	flags.BoolVar(&c.quiet, "quiet", false, "print only what is not right")
	if err := flags.Parse(arguments); err != nil {
		return c, err
	}
	err := c.set(server, rate, flags.Args())
	if err != nil {
		fmt.Fprintf(output, "davserve check: %v\n", err)
	}
	return c, err
}

// set sets what the options say. There are no other arguments.
func (c *fileCheckConfig) set(server address, rate size.Size, rest []string) (err error) {
	if c.socket, err = server.path(); err != nil {
		return err
	}
	if len(rest) > 0 {
		return fmt.Errorf("unknown argument %q", rest[0])
	}
	c.rate = int64(rate)
	return nil
}

// A checking is a check that the command has begun.
type checking struct {
	config fileCheckConfig
	output io.Writer
	screen *screen
	state  davserve.CheckState // the last one of the server, and what it has found since
	files  atomic.Int64        // that are right so far
	bytes  atomic.Int64        // of these
}

// run checks all files, and returns the exit status.
func (c *checking) run(ctx context.Context) int {
	began := time.Now()
	stop := c.screen.show(ctx, c.line, nil, &c.bytes)
	last, err := control.Check(ctx, c.config.socket, c.config.rate, c.pass)
	stop()
	if last.Ended != nil {
		c.state = last
	}
	switch {
	case ctx.Err() != nil:
		err = errors.New("it was interrupted")
	case err == nil && last.Error != "":
		err = errors.New(last.Error)
	}
	if !c.config.quiet && c.state.Began != nil {
		fmt.Fprintln(c.output, fileCheckSummary(c.state.CheckCounts, time.Since(began)))
	}
	if err != nil {
		c.screen.say("davserve check: %v", err)
	}
	return fileCheckStatus(c.state.CheckCounts, err)
}

// pass prints what was found, and keeps how far the check is.
func (c *checking) pass(event control.CheckEvent) {
	if event.State != nil {
		c.state = *event.State
		c.files.Store(c.state.Files)
		c.bytes.Store(c.state.Bytes)
	}
	found := event.Found
	switch {
	case found == nil:
	case found.Kind == davserve.CheckDamaged:
		c.state.Damaged++
		c.screen.print(c.output, "damaged: "+printable(found.Path)+"\n")
	case found.Kind == davserve.CheckChanged:
		c.state.Changed++
		c.screen.say("davserve check: %s changed each time that it was read", printable(found.Path))
	default:
		c.state.Unread++
		c.screen.say("davserve check: %s was not read: %s", printable(found.Path), found.Reason)
	}
}

// line says how far the check is.
func (c *checking) line(_ int64, rate float64) string {
	return fmt.Sprintf("%s, %s, %s/s", quantity(c.files.Load(), "file", "files"),
		size.Readable(c.bytes.Load()), size.Readable(int64(rate)))
}

// fileCheckSummary says what was checked.
func fileCheckSummary(counts davserve.CheckCounts, took time.Duration) string {
	text := fmt.Sprintf("%s, %d bytes, %d damaged", quantity(counts.Files, "file", "files"), counts.Bytes, counts.Damaged)
	if counts.Changed > 0 {
		text += fmt.Sprintf(", %d changed", counts.Changed)
	}
	if counts.Unread > 0 {
		text += fmt.Sprintf(", %d not read", counts.Unread)
	}
	return fmt.Sprintf("%s, in %v", text, took.Round(time.Millisecond))
}

// fileCheckStatus returns the exit status of a check. Damage counts more than anything else.
func fileCheckStatus(counts davserve.CheckCounts, err error) int {
	switch {
	case counts.Damaged > 0:
		return checkDamaged
	case err != nil, counts.Unread > 0:
		return checkNotDone
	case counts.Changed > 0:
		return checkChanged
	}
	return checkRight
}
