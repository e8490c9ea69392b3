package main

import (
	"context"
	"errors"
	"flag"
	"fmt"
	"io"
	"time"

	"davserve/internal/control"
)

const backupUsage = `usage: davserve backup [-folder FOLDER | -socket PATH] TARGET

Makes a backup of what a davserve keeps in its folder, while it serves. TARGET is
made, or is an empty folder. It is then a folder that davserve -folder TARGET serves.

`

const backupStatuses = `
exit status: 0 if TARGET has a whole backup that is on the disk; 1 if there is none, and
TARGET is as before; 2 for a wrong command line
`

// A backupConfig is what the command line of davserve backup says.
type backupConfig struct {
	socket string
	target string
}

// runBackup makes a backup. It returns the exit status.
func runBackup(ctx context.Context, arguments []string, output, errorOutput io.Writer) int {
	c, err := parseBackup(arguments, errorOutput)
	switch {
	case errors.Is(err, flag.ErrHelp):
		return 0
	case err != nil:
		return 2
	}
	began := time.Now()
	sizes, err := control.Fetch(ctx, c.socket, c.target)
	if err != nil {
		if ctx.Err() != nil {
			err = errors.New("it was interrupted")
		}
		fmt.Fprintf(errorOutput, "davserve backup: %v\n", err)
		return 1
	}
	took := time.Since(began).Round(time.Millisecond)
	fmt.Fprintf(output, "%s: %d bytes of data, %d bytes of the database, in %v\n", c.target, sizes.Data, sizes.Database, took)
	return 0
}

// parseBackup reads the command line of davserve backup. What is wrong with it, or the help that it asks for, is written
// to the output.
func parseBackup(arguments []string, output io.Writer) (backupConfig, error) {
	var c backupConfig
	var server address
	flags := flag.NewFlagSet("davserve backup", flag.ContinueOnError)
	flags.SetOutput(output)
	flags.Usage = func() {
		fmt.Fprint(output, backupUsage)
		flags.PrintDefaults()
		fmt.Fprint(output, backupStatuses)
	}
	server.add(flags)
	if err := flags.Parse(arguments); err != nil {
		return c, err
	}
	err := c.set(server, flags.Args())
	if err != nil {
		fmt.Fprintf(output, "davserve backup: %v\n", err)
	}
	return c, err
}

// set sets the socket of the server, and the target by the other arguments.
func (c *backupConfig) set(server address, rest []string) (err error) {
	if c.socket, err = server.path(); err != nil {
		return err
	}
	if len(rest) != 1 || rest[0] == "" {
		return errors.New("it needs one TARGET, after the options")
	}
	c.target = rest[0]
	return nil
}
