package main

import (
	"context"
	"errors"
	"flag"
	"fmt"
	"io"
	"os"
	"path/filepath"

	"davserve/internal/auth"
)

const setupUsage = `usage: davserve setup -user NAME [-config DIR] [-options FILE] [-listen ADDRESS]
                      [-host NAME]... [-cert FILE -key FILE] [-davd PROGRAM] [-no-start]

Sets up the service davserve.service for users over a network, with TLS. It makes, in
DIR, a file of users with this one, access rules by which this user may read and write
everything, and a certificate. It writes the options of the service, and starts it.

It asks for the password of the user. If standard input is not a terminal, the password
is its first line. Run it again for another user, or for another password: all other
users, the access rules and the certificate stay, and so do options that somebody has
changed.

`

const setupStatuses = `
exit status: 0 if it is done; 1 if it is not, or if somebody has to add options to those
in FILE; 2 for a wrong command line
`

const (
	systemdFolder  = "/run/systemd/system" // It exists where systemd runs.
	defaultConfig  = "/etc/davserve"
	defaultOptions = "/etc/default/davserve"
	defaultListen  = ":8443"
	serviceFolder  = "/var/lib/davserve" // what the service serves
)

// A setupConfig is what the command line of davserve setup says.
type setupConfig struct {
	user    string
	config  string
	options string
	davd    string
	listen  string // empty: it is as it was, or the default
	cert    string // empty: it is as it was, or a certificate of its own
	key     string
	hosts   texts
	noStart bool
}

// runSetup sets up the service. It returns the exit status.
func runSetup(ctx context.Context, arguments []string, output, errorOutput io.Writer) int {
	c, err := parseSetup(arguments, errorOutput)
	switch {
	case errors.Is(err, flag.ErrHelp):
		return 0
	case err != nil:
		return 2
	}
	s := &setup{setupConfig: c, input: os.Stdin, output: output, errorOutput: errorOutput}
	s.cost, s.systemd = passwordCost, systemdFolder
	s.command, s.explain = s.runCommand, s.askDavd
	return s.start(ctx)
}

// parseSetup reads the command line of davserve setup. What is wrong with it, or the help that it asks for, is written to
// the output.
func parseSetup(arguments []string, output io.Writer) (setupConfig, error) {
	c := setupConfig{config: defaultConfig, options: defaultOptions, davd: defaultDavd()}
	flags := flag.NewFlagSet("davserve setup", flag.ContinueOnError)
	flags.SetOutput(output)
	flags.Usage = func() {
		fmt.Fprint(output, setupUsage)
		flags.PrintDefaults()
		fmt.Fprint(output, setupStatuses)
	}
	c.add(flags)
	if err := flags.Parse(arguments); err != nil {
		return c, err
	}
	err := c.set(flags.Args())
	if err != nil {
		fmt.Fprintf(output, "davserve setup: %v\n", err)
	}
	return c, err
}

// add adds the options.
func (c *setupConfig) add(flags *flag.FlagSet) {
	flags.StringVar(&c.user, "user", "", "`name` of the user")
	flags.Func("config", "`folder` for the users, access rules and certificate (default: "+defaultConfig+")", notEmpty(&c.config))
	flags.Func("options", "`file` with the options of the service (default: "+defaultOptions+")", notEmpty(&c.options))
	flags.Func("listen", "`address` at which the service listens (default: "+defaultListen+")", notEmpty(&c.listen))
	flags.Var(&c.hosts, "host", "`name` or address for the certificate (repeatable; default: those of this machine)")
	flags.Func("cert", "`file` with another certificate for TLS, in PEM", notEmpty(&c.cert))
	flags.Func("key", "`file` with the key of that certificate, in PEM", notEmpty(&c.key))
	flags.Func("davd", "the `program` davd (default: beside this program, or in PATH)", notEmpty(&c.davd))
	flags.BoolVar(&c.noStart, "no-start", false, "do not start the service, and print the commands that do")
}

// set checks the options, and makes the names of files absolute: the service starts in another folder.
func (c *setupConfig) set(rest []string) error {
	switch {
	case len(rest) > 0:
		return fmt.Errorf("unknown argument %q", rest[0])
	case c.user == "":
		return errors.New("it needs -user")
	case c.user == nobody:
		return fmt.Errorf("-user: %s is a request without a user", nobody)
	case (c.cert == "") != (c.key == ""):
		return errors.New("-cert and -key need each other")
	case c.cert != "" && len(c.hosts) > 0:
		return errors.New("-host is for a certificate that is made, and not for that of -cert")
	}
	if err := auth.CheckName(c.user); err != nil {
		return fmt.Errorf("-user %q: %w", c.user, err)
	}
	for _, host := range c.hosts {
		if err := checkHost(host); err != nil {
			return err
		}
	}
	return c.setPaths()
}

// setPaths makes the names of files absolute, and checks what the options of the service would be.
func (c *setupConfig) setPaths() (err error) {
	for _, path := range []*string{&c.config, &c.options, &c.cert, &c.key} {
		if *path == "" {
			continue
		}
		if *path, err = filepath.Abs(*path); err != nil {
			return err
		}
	}
	return c.over(c.defaults()).check()
}

// defaults returns the options of a service that is new.
func (c *setupConfig) defaults() serviceOptions {
	in := func(name string) string { return filepath.Join(c.config, name) }
	return serviceOptions{
		listen: defaultListen, cert: in("cert.pem"), key: in("key.pem"), users: in("users"), rights: in("rules.toml"),
	}
}

// over returns options of a service with those that the command line has in their place.
func (c *setupConfig) over(o serviceOptions) serviceOptions {
	if c.listen != "" {
		o.listen = c.listen
	}
	if c.cert != "" {
		o.cert, o.key = c.cert, c.key
	}
	return o
}
