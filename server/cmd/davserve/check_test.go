package main

import (
	"bytes"
	"context"
	"errors"
	"io"
	"log"
	"strings"
	"testing"
	"time"

	"davserve"
	"davserve/internal/control"
)

func TestParseFileCheckRefuses(t *testing.T) {
	tests := []struct{ arguments, says string }{
		{"", "one of -folder and -socket"},
		{"-folder f -socket s", "one of -folder and -socket"},
		{"-folder= ", "the name is empty"},
		{"-folder f extra", "unknown argument"},
		{"-folder f -rate fast", "size"},
		{"-folder f -rate -1", "size"},
		{"-folder f -listen :1", "not defined"},
	}
	for _, test := range tests {
		var said bytes.Buffer
		if _, err := parseFileCheck(strings.Fields(test.arguments), &said); err == nil {
			t.Errorf("%s is accepted", test.arguments)
		}
		if !strings.Contains(said.String(), test.says) {
			t.Errorf("%s: it says %q, without %q", test.arguments, said.String(), test.says)
		}
	}
}

func TestParseFileCheckAccepts(t *testing.T) {
	tests := []struct {
		arguments string
		want      fileCheckConfig
	}{
		{"-folder /srv/dav", fileCheckConfig{socket: "/srv/dav/control", rate: 32 << 20}},
		{"-socket s -rate 1M -quiet", fileCheckConfig{socket: "s", rate: 1 << 20, quiet: true}},
		{"-rate 0 -folder f", fileCheckConfig{socket: "f/control"}},
	}
	for _, test := range tests {
		if got, err := parseFileCheck(strings.Fields(test.arguments), io.Discard); err != nil || got != test.want {
			t.Errorf("%s: %+v, %v, want %+v", test.arguments, got, err, test.want)
		}
	}
}

// A checker finds something in each check.
type checker struct {
	found  []davserve.CheckFinding
	counts davserve.CheckCounts
	err    error
	waits  func() // is called before the end; nil: nothing is
}

// Backup implements control.Source.
func (c *checker) Backup(context.Context, io.Writer) error { return davserve.ErrNoFolder }

// Locks implements control.Source.
func (c *checker) Locks(context.Context) ([]davserve.Lock, error) { return nil, nil }

// RemoveLock implements control.Source.
func (c *checker) RemoveLock(context.Context, string) error { return davserve.ErrNoLock }

// Checked implements control.Source.
func (c *checker) Checked() davserve.CheckState { return davserve.CheckState{State: "none"} }

// CheckFiles implements control.Source.
func (c *checker) CheckFiles(ctx context.Context, o davserve.CheckOptions) (davserve.CheckState, error) {
	now := time.Now()
	if errors.Is(c.err, davserve.ErrInCheck) {
		return davserve.CheckState{State: "running", Began: &now}, c.err
	}
	o.Progress(davserve.CheckState{State: "running", Began: &now})
	for _, it := range c.found {
		o.Report(it)
	}
	if c.waits != nil {
		c.waits()
		<-ctx.Done()
	}
	state := davserve.CheckState{State: "done", Began: &now, Ended: &now, CheckCounts: c.counts}
	if c.err != nil {
		state.State, state.Error = "failed", c.err.Error()
	}
	return state, c.err
}

// serveChecks answers at a socket as a server with a checker, and returns its folder.
func serveChecks(t *testing.T, c *checker) (folder string) {
	t.Helper()
	folder = t.TempDir()
	listener, err := control.Listen(socketIn(folder))
	if err != nil {
		t.Fatal(err)
	}
	server := control.Serve(context.Background(), listener, c, time.Minute, log.New(io.Discard, "", 0))
	t.Cleanup(func() { server.Close(context.Background()) })
	return folder
}

// davserveCheck runs davserve check. The time in what it prints is left out.
func davserveCheck(ctx context.Context, arguments ...string) ran {
	var said, wrong bytes.Buffer
	status := run(ctx, append([]string{"check"}, arguments...), &said, &wrong)
	text, _, found := strings.Cut(said.String(), ", in ")
	if found {
		text += "\n"
	}
	return ran{status, text, wrong.String()}
}

func TestACheckIsPrinted(t *testing.T) {
	damaged := davserve.CheckFinding{Kind: davserve.CheckDamaged, Path: "/a%20b"}
	changed := davserve.CheckFinding{Kind: davserve.CheckChanged, Path: "/c"}
	unread := davserve.CheckFinding{Kind: davserve.CheckUnread, Path: "/d/", Reason: "status 507"}
	const (
		saysChanged = "davserve check: /c changed each time that it was read\n"
		saysUnread  = "davserve check: /d/ was not read: status 507\n"
	)
	tests := []struct {
		name    string
		checker checker
		quiet   bool
		want    ran
	}{
		{"all is right", checker{counts: davserve.CheckCounts{Files: 30, Bytes: 99}}, false,
			ran{0, "30 files, 99 bytes, 0 damaged\n", ""}},
		{"one is right", checker{counts: davserve.CheckCounts{Files: 1, Bytes: 5}}, true, ran{0, "", ""}},
		{"one is damaged", checker{
			found: []davserve.CheckFinding{damaged}, counts: davserve.CheckCounts{Files: 29, Bytes: 98, Damaged: 1},
		}, false, ran{1, "damaged: /a%20b\n29 files, 98 bytes, 1 damaged\n", ""}},
		{"one is damaged, quietly", checker{
			found: []davserve.CheckFinding{damaged}, counts: davserve.CheckCounts{Files: 29, Damaged: 1},
		}, true, ran{1, "damaged: /a%20b\n", ""}},
		{"one has changed", checker{
			found: []davserve.CheckFinding{changed}, counts: davserve.CheckCounts{Files: 2, Bytes: 3, Changed: 1},
		}, false, ran{4, "2 files, 3 bytes, 0 damaged, 1 changed\n", saysChanged}},
		{"one has changed, and one is not read", checker{
			found: []davserve.CheckFinding{changed, unread}, counts: davserve.CheckCounts{Changed: 1, Unread: 1},
		}, false, ran{3, "0 files, 0 bytes, 0 damaged, 1 changed, 1 not read\n", saysChanged + saysUnread}},
		{"it ends early", checker{counts: davserve.CheckCounts{Files: 1, Bytes: 1}, err: errors.New("davd is away")}, false,
			ran{3, "1 file, 1 bytes, 0 damaged\n", "davserve check: davd is away\n"}},
		{"it ends early, and one is damaged", checker{
			found: []davserve.CheckFinding{damaged}, counts: davserve.CheckCounts{Damaged: 1}, err: errors.New("davd is away"),
		}, false, ran{1, "damaged: /a%20b\n0 files, 0 bytes, 1 damaged\n", "davserve check: davd is away\n"}},
		{"another one is under way", checker{err: davserve.ErrInCheck}, false,
			ran{3, "", "davserve check: the server checks nothing: another check is under way (status 409)\n"}},
	}
	for _, test := range tests {
		test := test
		t.Run(test.name, func(t *testing.T) {
			arguments := []string{"-folder", serveChecks(t, &test.checker)}
			if test.quiet {
				arguments = append(arguments, "-quiet")
			}
			if got := davserveCheck(context.Background(), arguments...); got != test.want {
				t.Errorf("%+v, want %+v", got, test.want)
			}
		})
	}
}

func TestAnInterruptEndsACheck(t *testing.T) {
	ctx, cancel := context.WithCancel(context.Background())
	folder := serveChecks(t, &checker{waits: cancel})
	got := davserveCheck(ctx, "-folder", folder)
	if got.status != 3 || got.wrong != "davserve check: it was interrupted\n" {
		t.Errorf("%+v", got)
	}
}

func TestACheckOfNoServer(t *testing.T) {
	got := davserveCheck(context.Background(), "-folder", t.TempDir())
	if got.status != 3 || got.said != "" || !strings.Contains(got.wrong, "no server answers at ") {
		t.Errorf("%+v", got)
	}
}
