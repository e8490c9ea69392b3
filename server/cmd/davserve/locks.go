package main

import (
	"context"
	"errors"
	"flag"
	"fmt"
	"io"
	"strings"
	"time"

	"davserve"
	"davserve/internal/control"
)

const locksUsage = `usage: davserve locks list [-folder FOLDER | -socket PATH] [-json]
       davserve locks remove [-folder FOLDER | -socket PATH] TOKEN...

The first lists the locks of a server that runs, the oldest first: the path, the user who
made the lock (- for a request without a user), the kind, when it expires, and the token.
The second removes the locks with these tokens, whoever made them.

`

const locksStatuses = `
exit status: 0 if it is done; 1 if no lock has one of the tokens, or the server does not
answer; 2 for a wrong command line
`

// locksTime is how long davserve locks may take. Over a folder a server may wait for the next davd.
const locksTime = time.Minute

// errMissing says that some locks could not be removed.
var errMissing = errors.New("not every token is that of a lock")

// A locksConfig is what the command line of davserve locks says.
type locksConfig struct {
	socket string
	json   bool
	tokens []string // of the locks to remove; empty: the locks are listed
}

// runLocks lists locks or removes some. It returns the exit status.
func runLocks(ctx context.Context, arguments []string, output, errorOutput io.Writer) int {
	c, err := parseLocks(arguments, errorOutput)
	switch {
	case errors.Is(err, flag.ErrHelp):
		return 0
	case err != nil:
		return 2
	}
	limited, cancel := context.WithTimeout(ctx, locksTime)
	defer cancel()
	if len(c.tokens) > 0 {
		err = c.remove(limited, output)
	} else {
		err = c.list(limited, output)
	}
	if err == nil {
		return 0
	}
	if ctx.Err() != nil {
		err = errors.New("it was interrupted")
	}
	fmt.Fprintf(errorOutput, "davserve locks: %v\n", err)
	return 1
}

// parseLocks reads the command line of davserve locks. What is wrong with it, or the help that it asks for, is written to
// the output.
func parseLocks(arguments []string, output io.Writer) (locksConfig, error) {
	var c locksConfig
	var server address
	flags := flag.NewFlagSet("davserve locks", flag.ContinueOnError)
	flags.SetOutput(output)
	flags.Usage = func() {
		fmt.Fprint(output, locksUsage)
		flags.PrintDefaults()
		fmt.Fprint(output, locksStatuses)
	}
	server.add(flags)
	flags.BoolVar(&c.json, "json", false, "list the locks as JSON")
	words, err := parseAnywhere(flags, arguments)
	if err != nil {
		return c, err
	}
	if err := c.set(server, words); err != nil {
		fmt.Fprintf(output, "davserve locks: %v\n", err)
		return c, err
	}
	return c, nil
}

// set sets the socket of the server, and what the arguments beside the options say.
func (c *locksConfig) set(server address, words []string) (err error) {
	if len(words) == 0 || words[0] != "list" && words[0] != "remove" {
		return errors.New("the command is davserve locks list or davserve locks remove TOKEN...")
	}
	if c.socket, err = server.path(); err != nil {
		return err
	}
	command, rest := words[0], words[1:]
	switch {
	case command == "list" && len(rest) > 0:
		return fmt.Errorf("unknown argument %q", rest[0])
	case command == "list":
		return nil
	case c.json:
		return errors.New("-json is for davserve locks list")
	case len(rest) == 0:
		return errors.New("it needs a TOKEN")
	}
	for _, word := range rest {
		token := plainToken(word)
		if token == "" {
			return errors.New("a TOKEN is empty")
		}
		c.tokens = append(c.tokens, token)
	}
	return nil
}

// plainToken returns a token without the angle brackets that header fields have around it.
func plainToken(word string) string {
	if strings.HasPrefix(word, "<") && strings.HasSuffix(word, ">") {
		return word[1 : len(word)-1]
	}
	return word
}

// list lists the locks.
func (c *locksConfig) list(ctx context.Context, output io.Writer) error {
	text, err := control.ListLocks(ctx, c.socket)
	if err != nil {
		return err
	}
	if c.json {
		_, err := output.Write(text)
		return err
	}
	return printLocks(output, text, time.Now())
}

// remove removes the locks one after the other, as long as the server answers.
func (c *locksConfig) remove(ctx context.Context, output io.Writer) error {
	var missing error
	for _, token := range c.tokens {
		err := control.RemoveLock(ctx, c.socket, token)
		switch {
		case errors.Is(err, davserve.ErrNoLock):
			missing = errMissing
			fmt.Fprintf(output, "%s: %v\n", printable(token), err)
		case err != nil:
			return fmt.Errorf("%s: %w", printable(token), err)
		default:
			fmt.Fprintf(output, "%s: removed\n", printable(token))
		}
	}
	return missing
}
