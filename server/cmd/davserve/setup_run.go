package main

import (
	"context"
	"errors"
	"fmt"
	"io"
	"log"
	"net"
	"os"
	"os/exec"
	"path/filepath"
	"strings"
	"time"

	"davserve/internal/auth"
	"davserve/internal/frame"
)

// passwordCost is the cost of the hash of a password, as of htpasswd -B -C 10: a check takes some 90 ms.
const passwordCost = 10

// dateLayout is how the end of a certificate is shown.
const dateLayout = "2006-01-02"

// A setup sets up the service.
type setup struct {
	setupConfig
	input               *os.File // where the password comes from
	output, errorOutput io.Writer
	cost                int    // of the hash of the password
	systemd             string // the folder that exists where systemd runs
	command             func(ctx context.Context, words []string) error
	explain             func(ctx context.Context, check checkConfig, rules string) (frame.Explained, error)
}

// start sets up the service. It returns the exit status.
func (s *setup) start(ctx context.Context) int {
	err := s.run(ctx)
	if err == nil {
		return 0
	}
	if ctx.Err() != nil {
		err = errors.New("it was interrupted")
	}
	fmt.Fprintf(s.errorOutput, "davserve setup: %v\n", err)
	return 1
}

// run does everything. An error before the first write leaves all as it was.
func (s *setup) run(ctx context.Context) error {
	if err := s.checkFolders(); err != nil {
		return err
	}
	p, err := s.plan(ctx)
	if err != nil {
		return err
	}
	password, err := askPassword(ctx, s.input, s.errorOutput, s.user)
	if err != nil {
		return err
	}
	if s.starts() {
		if err := s.command(ctx, []string{"systemd-sysusers"}); err != nil { // So that there is the group of the service.
			return err
		}
	}
	if err := s.write(p, password); err != nil {
		return err
	}
	return s.finish(ctx, p)
}

// checkFolders refuses folders in which this user cannot write, before it is asked for a password.
func (s *setup) checkFolders() error {
	folder := s.config
	if _, err := os.Stat(folder); err != nil {
		folder = filepath.Dir(folder)
	}
	for _, it := range []string{folder, filepath.Dir(s.options)} {
		err := checkWritable(it)
		if err != nil && os.Geteuid() != 0 {
			err = fmt.Errorf("%w: run it as root", err)
		}
		if err != nil {
			return err
		}
	}
	return nil
}

// starts reports whether the service is to be started.
func (s *setup) starts() bool {
	info, err := os.Stat(s.systemd)
	return err == nil && info.IsDir() && !s.noStart
}

// write writes the files, and says what becomes of each. The options come last, since they name the others.
func (s *setup) write(p setupPlan, password string) error {
	if err := makeFolder(s.config); err != nil {
		return err
	}
	if err := s.writeCertificate(p); err != nil {
		return err
	}
	if err := s.writeRules(p); err != nil {
		return err
	}
	if err := s.writeUsers(p, password); err != nil {
		return err
	}
	return s.writeOptions(p)
}

func (s *setup) writeCertificate(p setupPlan) error {
	own, group := p.certificate, groupOfService()
	if own.key != nil {
		if err := replaceFile(p.service.key, own.key, access{0o640, same, group}); err != nil {
			return err
		}
	}
	if own.cert != nil {
		if err := replaceFile(p.service.cert, own.cert, access{0o644, same, same}); err != nil {
			return err
		}
	}
	if s.isOwn(p.service.key) {
		if err := letRead(p.service.key, group); err != nil {
			return err
		}
	}
	s.sayCertificate(p)
	return nil
}

// sayCertificate says for how long the certificate is valid, and what is wrong with it.
func (s *setup) sayCertificate(p setupPlan) {
	own, did, advice := p.certificate, "stays", ""
	if own.parsed == nil {
		return
	}
	if own.cert != nil {
		did = "made"
	}
	if wrong := own.wrong(s.hosts, time.Now()); wrong != "" {
		advice = ", but " + wrong
		if p.service.cert == s.defaults().cert {
			advice += ": remove this file, and run this again for a new one"
		}
	}
	s.say("%s: %s, valid until %s%s", p.service.cert, did, own.parsed.NotAfter.UTC().Format(dateLayout), advice)
}

func (s *setup) writeRules(p setupPlan) error {
	file, group, did := p.service.rights, groupOfService(), "stays"
	if p.rules != "" {
		did = "made"
		if err := replaceFile(file, []byte(p.rules), access{0o640, same, group}); err != nil {
			return err
		}
	} else if s.isOwn(file) {
		if err := letRead(file, group); err != nil {
			return err
		}
	}
	s.say("%s: %s\n    %s", file, did, p.decides)
	if p.mayNothing {
		s.say("    add a rule for %s, and then: systemctl reload davserve", printable(s.user))
	}
	return nil
}

func (s *setup) writeUsers(p setupPlan, password string) error {
	file := p.service.users
	old, exists, err := readIfThere(file) // Again: somebody may have changed it since the password was asked for.
	if err != nil {
		return err
	}
	text, err := auth.SetPassword(string(old), s.user, password, s.cost)
	if err != nil {
		return fmt.Errorf("%s: %w", file, err)
	}
	a := accessOf(file, 0)
	a.mode = 0o640
	if group := groupOfService(); group != same {
		a.group = group
	}
	if err := replaceFile(file, []byte(text), a); err != nil {
		return err
	}
	did := "is added"
	if p.hasUser {
		did = "has this password from now on"
	}
	others := ""
	if exists {
		others = ". All other lines stay"
	}
	s.say("%s: %s %s%s", file, printable(s.user), did, others)
	return nil
}

func (s *setup) writeOptions(p setupPlan) error {
	if !p.writes {
		s.say("%s: stays", s.options)
		return nil
	}
	if err := replaceFile(s.options, []byte(p.file.with(p.service)), accessOf(s.options, 0o644)); err != nil {
		return err
	}
	s.say("%s: the service has the options\n    %s", s.options, p.service)
	return nil
}

// finish starts the service, or says what does, and shows how to reach it.
func (s *setup) finish(ctx context.Context, p setupPlan) error {
	if len(p.missing) > 0 {
		s.sayCommands(p)
		return fmt.Errorf("somebody has changed DAVSERVE_OPTIONS in %s, so it stays. Add these options first, and remove others of the same name:\n    %s",
			s.options, strings.Join(p.missing, " "))
	}
	if s.starts() {
		for _, words := range startCommands {
			if err := s.command(ctx, words); err != nil {
				return err
			}
		}
		s.say("the service runs, and is started with the machine")
	} else {
		s.sayCommands(p)
	}
	s.showSummary(p)
	return nil
}

// startCommands start the service.
var startCommands = [][]string{
	{"systemctl", "daemon-reload"},
	{"systemctl", "enable", "davserve"},
	{"systemctl", "restart", "davserve"},
}

// sayCommands prints the commands that start the service.
func (s *setup) sayCommands(p setupPlan) {
	s.say("these commands start the service:")
	s.say("    systemd-sysusers")
	if groupOfService() == same {
		s.say("    chgrp %s %s", serviceGroup, strings.Join(s.ownSecrets(p), " "))
	}
	for _, words := range startCommands {
		s.say("    %s", strings.Join(words, " "))
	}
}

// ownSecrets returns the files that only the service may read.
func (s *setup) ownSecrets(p setupPlan) (files []string) {
	for _, file := range []string{p.service.users, p.service.rights, p.service.key} {
		if file != "" && s.isOwn(file) {
			files = append(files, file)
		}
	}
	return files
}

// askDavd asks a davd of its own what access rules allow.
func (s *setup) askDavd(ctx context.Context, check checkConfig, rules string) (frame.Explained, error) {
	return check.explainText(ctx, rules, log.New(s.errorOutput, "", 0))
}

// runCommand runs a command of systemd, whose messages are shown.
func (s *setup) runCommand(ctx context.Context, words []string) error {
	command := exec.CommandContext(ctx, words[0], words[1:]...)
	command.Stdout, command.Stderr = s.errorOutput, s.errorOutput
	if err := command.Run(); err != nil {
		return fmt.Errorf("`%s` fails: %w", strings.Join(words, " "), err)
	}
	return nil
}

// showSummary shows how the server is reached and kept.
func (s *setup) showSummary(p setupPlan) {
	s.say("")
	s.say("URL          %s", s.url(p))
	s.say("user         %s", printable(s.user))
	if p.certificate.parsed != nil {
		s.say("fingerprint  %s (SHA-256, of the certificate)", fingerprint(p.certificate.parsed.Raw))
	}
	s.say("folder       %s", serviceFolder)
	s.say("backup       davserve backup -folder %s TARGET", serviceFolder)
}

// url returns the URL of the server.
func (s *setup) url(p setupPlan) string {
	host, port, err := net.SplitHostPort(p.service.listen)
	if err != nil {
		return p.service.listen
	}
	if ip := net.ParseIP(host); host == "" || ip != nil && ip.IsUnspecified() {
		host = certificateHosts(s.hosts)[0]
	}
	scheme, usual := "https", "443"
	if p.service.cert == "" && !strings.Contains(p.file.value(), "-tls-self-signed") {
		scheme, usual = "http", "80"
	}
	if port == usual {
		if strings.Contains(host, ":") {
			host = "[" + host + "]"
		}
		return scheme + "://" + host + "/"
	}
	return scheme + "://" + net.JoinHostPort(host, port) + "/"
}

// say prints a line.
func (s *setup) say(format string, arguments ...any) {
	fmt.Fprintf(s.output, format+"\n", arguments...)
}
