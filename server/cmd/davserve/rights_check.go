package main

import (
	"context"
	"errors"
	"flag"
	"fmt"
	"io"
	"log"
	"strings"
	"time"

	"davserve/internal/davd"
	"davserve/internal/frame"
)

const checkUsage = `usage: davserve rights check [-davd PROGRAM] FILE USER PATH

Says what the access rules in FILE allow USER at PATH, and which rule decides. USER is a
name, or - for a request without a user. PATH is that of a URL without the prefix of the
server: it begins with a slash, and other characters than letters, digits and -._~/ are
percent-encoded. It needs no server.

`

const checkStatuses = `
exit status: 0 if it has said so; 1 if FILE has no rules, or davd cannot be started; 2 for
a wrong command line
`

// checkTime is how long davserve rights check may take.
const checkTime = 30 * time.Second

// errPath says that a path is not one of a URL.
var errPath = errors.New("the PATH is none that a URL can have")

// nobody is the USER of a request without one.
const nobody = "-"

// A checkConfig is what the command line of davserve rights check says.
type checkConfig struct {
	davd string
	file string
	user string
	path string
}

// runRights says what access rules allow. It returns the exit status.
func runRights(ctx context.Context, arguments []string, output, errorOutput io.Writer) int {
	c, err := parseCheck(arguments, errorOutput)
	switch {
	case errors.Is(err, flag.ErrHelp):
		return 0
	case err != nil:
		return 2
	}
	ctx, cancel := context.WithTimeout(ctx, checkTime)
	defer cancel()
	explained, err := c.explain(ctx, log.New(errorOutput, "", 0))
	if err == nil {
		fmt.Fprintln(output, c.sentence(explained))
		return 0
	}
	fmt.Fprintf(errorOutput, "davserve rights check: %v\n", err)
	if errors.Is(err, errPath) {
		return 2
	}
	return 1
}

// parseCheck reads the command line of davserve rights check. What is wrong with it, or the help that it asks for, is
// written to the output.
func parseCheck(arguments []string, output io.Writer) (checkConfig, error) {
	c := checkConfig{davd: defaultDavd()}
	flags := flag.NewFlagSet("davserve rights check", flag.ContinueOnError)
	flags.SetOutput(output)
	flags.Usage = func() {
		fmt.Fprint(output, checkUsage)
		flags.PrintDefaults()
		fmt.Fprint(output, checkStatuses)
	}
	flags.Func("davd", "the `program` davd (default: beside this program, or in PATH)", notEmpty(&c.davd))
	words, err := parseAnywhere(flags, arguments)
	if err != nil {
		return c, err
	}
	if err := c.set(words); err != nil {
		fmt.Fprintf(output, "davserve rights check: %v\n", err)
		return c, err
	}
	return c, nil
}

// parseAnywhere parses options that may be before, between and after other arguments, and returns these.
func parseAnywhere(flags *flag.FlagSet, arguments []string) (words []string, err error) {
	for {
		if err := flags.Parse(arguments); err != nil {
			return nil, err
		}
		if flags.NArg() == 0 {
			return words, nil
		}
		words = append(words, flags.Arg(0))
		arguments = flags.Args()[1:]
	}
}

// set sets what the arguments beside the options say.
func (c *checkConfig) set(words []string) error {
	switch {
	case len(words) == 0 || words[0] != "check":
		return errors.New("the command is davserve rights check FILE USER PATH")
	case len(words) != 4:
		return errors.New("it needs a FILE, a USER and a PATH")
	case words[1] == "":
		return errors.New("the name of the FILE is empty")
	case words[2] == "":
		return fmt.Errorf("the USER is empty (%s is a request without a user)", nobody)
	case !strings.HasPrefix(words[3], "/"):
		return errors.New("the PATH does not begin with a slash")
	case strings.ContainsAny(words[3], "?#"):
		return errors.New("the PATH has a ? or #, which a name has as %3F or %23")
	}
	c.file, c.user, c.path = words[1], words[2], words[3]
	return nil
}

// explain asks a davd of its own what the rules allow.
func (c *checkConfig) explain(ctx context.Context, logger *log.Logger) (explained frame.Explained, err error) {
	text, err := readRights(c.file)
	if err != nil {
		return explained, err
	}
	return c.explainText(ctx, text, logger)
}

// explainText asks a davd of its own what rules with this text allow.
func (c *checkConfig) explainText(ctx context.Context, text string, logger *log.Logger) (explained frame.Explained, err error) {
	engine, err := davd.Start(ctx, davd.Config{Program: c.davd, Rights: text, Log: logger})
	if err != nil {
		return explained, inFile(c.file, err)
	}
	defer engine.Close(ctx)
	var principal *string
	if c.user != nobody {
		principal = &c.user
	}
	explained, err = engine.Explain(ctx, principal, c.path)
	var failed *davd.StatusError
	if errors.As(err, &failed) && failed.Status < 500 {
		return explained, errPath
	}
	return explained, err
}

// sentence says what is allowed.
func (c *checkConfig) sentence(explained frame.Explained) string {
	decides := "no rule decides"
	if explained.Rule != nil {
		decides = fmt.Sprintf("rule %d decides", *explained.Rule)
	}
	who := c.user
	if who == nobody {
		who = "a request without a user"
	}
	allowed := rightsIn(explained)
	if len(allowed) == 0 {
		return fmt.Sprintf("%s: %s may do nothing at %s", decides, who, c.path)
	}
	sentence := fmt.Sprintf("%s: %s may %s %s", decides, who, joined(allowed), c.path)
	if explained.Rule == nil {
		sentence += ", because a rule allows something below it"
	}
	return sentence
}

// rightsIn returns what is allowed.
func rightsIn(explained frame.Explained) (allowed []string) {
	if explained.List {
		allowed = append(allowed, "list")
	}
	if explained.Read {
		allowed = append(allowed, "read")
	}
	if explained.Write {
		allowed = append(allowed, "write")
	}
	return allowed
}

// joined returns words as a sentence has them.
func joined(words []string) string {
	last := len(words) - 1
	if last == 0 {
		return words[0]
	}
	return strings.Join(words[:last], ", ") + " and " + words[last]
}
