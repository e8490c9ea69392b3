package main

import (
	"context"
	"fmt"
	"io"
	"path/filepath"
	"strings"
	"time"

	"davserve/internal/auth"
)

// A setupPlan is what davserve setup will do. To make it nothing is written.
type setupPlan struct {
	hasUser bool // the file of users has the user

	file    optionsFile
	service serviceOptions // of the service
	writes  bool           // the options are to be written
	missing []string       // the options that somebody has to add, because the file stays

	certificate ownCertificate // parsed is nil if it is not known
	rules       string         // the access rules that are to be written; empty: there are some
	decides     string         // what they allow the user
	mayNothing  bool           // they allow the user nothing
}

// plan returns what is to be done.
func (s *setup) plan(ctx context.Context) (p setupPlan, err error) {
	if err := s.planOptions(&p); err != nil {
		return p, err
	}
	text, _, err := readIfThere(p.service.users)
	if err != nil {
		return p, err
	}
	if p.hasUser, err = auth.HasUser(string(text), s.user); err != nil {
		return p, fmt.Errorf("%s: %w", p.service.users, err)
	}
	if err := s.planCertificate(&p); err != nil {
		return p, err
	}
	return p, s.planRules(ctx, &p)
}

// planOptions finds out which options the service has, or will have.
func (s *setup) planOptions(p *setupPlan) error {
	text, _, err := readIfThere(s.options)
	if err != nil {
		return err
	}
	p.file = readOptions(string(text))
	p.service = s.defaults()
	old, isSetUp := p.file.setUp()
	if isSetUp && old.users == p.service.users && old.rights == p.service.rights {
		p.service = old
	}
	p.service = s.over(p.service)
	if isSetUp || p.file.isInstalled() {
		p.writes = !p.file.hasLine() || p.file.value() != p.service.String()
		return p.service.check()
	}
	if p.missing = p.file.missing(p.service); len(p.missing) == 0 {
		s.keepOptions(p)
	}
	return nil
}

// keepOptions has the plan follow a line that somebody wrote, and that has users and access rules.
func (s *setup) keepOptions(p *setupPlan) {
	c, err := parse(strings.Fields(p.file.value()), io.Discard)
	if err != nil {
		return // This cannot be: the line was parsed before.
	}
	if s.listen != "" && s.listen != c.listen {
		p.missing = append(p.missing, "-listen "+s.listen)
	}
	if s.cert != "" && s.cert != c.cert {
		p.missing = append(p.missing, "-cert "+s.cert, "-key "+s.key)
	}
	p.service.listen, p.service.cert, p.service.key, p.service.rights = c.listen, c.cert, c.key, c.rights
}

// isOwn reports whether a file is one that davserve setup makes.
func (s *setup) isOwn(file string) bool { return filepath.Dir(file) == s.config }

// planCertificate reads the certificate of the service, or makes one. One that somebody else has among the options may be
// a file that only the service can read.
func (s *setup) planCertificate(p *setupPlan) (err error) {
	own, service := s.defaults(), p.service
	switch {
	case service.cert == own.cert && service.key == own.key:
		p.certificate, err = planCertificate(own.cert, own.key, certificateHosts(s.hosts), time.Now())
	case s.cert != "" || p.writes:
		p.certificate.parsed, err = loadCertificate(service.cert, service.key)
	case service.cert != "":
		p.certificate.parsed, _ = loadCertificate(service.cert, service.key)
	}
	return err
}

// planRules finds out what the access rules allow the user. Without rules it makes some.
func (s *setup) planRules(ctx context.Context, p *setupPlan) error {
	file := p.service.rights
	_, exists, err := readIfThere(file)
	if err != nil {
		return err
	}
	var text string
	if exists || !s.isOwn(file) {
		text, err = readRights(file)
	} else {
		text = firstRules(s.user, file)
		p.rules = text
	}
	if err != nil {
		return err
	}
	ctx, cancel := context.WithTimeout(ctx, checkTime)
	defer cancel()
	check := checkConfig{davd: s.davd, file: file, user: s.user, path: "/"}
	explained, err := s.explain(ctx, check, text)
	p.decides, p.mayNothing = check.sentence(explained), len(rightsIn(explained)) == 0
	return err
}
