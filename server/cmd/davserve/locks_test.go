package main

import (
	"bytes"
	"context"
	"encoding/json"
	"errors"
	"io"
	"log"
	"path/filepath"
	"reflect"
	"strings"
	"testing"
	"time"

	"davserve"
	"davserve/internal/control"
)

func TestParseLocksRefuses(t *testing.T) {
	tests := []struct{ arguments, says string }{
		{"", "the command is"},
		{"-folder f", "the command is"},
		{"show -folder f", "the command is"},
		{"list", "one of -folder and -socket"},
		{"list -folder f -socket s", "one of -folder and -socket"},
		{"list -folder=", "the name is empty"},
		{"list -socket=", "the name is empty"},
		{"list -folder f extra", "unknown argument"},
		{"list -folder f -tokens", "not defined"},
		{"remove urn:1", "one of -folder and -socket"},
		{"remove -folder f", "it needs a TOKEN"},
		{"remove -folder f <>", "a TOKEN is empty"},
		{"remove -folder f -json urn:1", "-json is for davserve locks list"},
	}
	for _, test := range tests {
		var said bytes.Buffer
		if _, err := parseLocks(strings.Fields(test.arguments), &said); err == nil {
			t.Errorf("%s is accepted", test.arguments)
		}
		if !strings.Contains(said.String(), test.says) {
			t.Errorf("%s: it says %q, without %q", test.arguments, said.String(), test.says)
		}
	}
	if _, err := parseLocks([]string{"remove", "-folder", "f", ""}, io.Discard); err == nil {
		t.Error("an empty token is accepted")
	}
}

func TestParseLocksAccepts(t *testing.T) {
	tests := []struct {
		arguments string
		want      locksConfig
	}{
		{"list -folder /srv/dav", locksConfig{socket: "/srv/dav/control"}},
		{"-folder /srv/dav list -json", locksConfig{socket: "/srv/dav/control", json: true}},
		{"list -json -socket s", locksConfig{socket: "s", json: true}},
		{"remove -folder f urn:1", locksConfig{socket: "f/control", tokens: []string{"urn:1"}}},
		{"remove <urn:1> urn:2 -socket s", locksConfig{socket: "s", tokens: []string{"urn:1", "urn:2"}}},
	}
	for _, test := range tests {
		got, err := parseLocks(strings.Fields(test.arguments), io.Discard)
		if err != nil || !reflect.DeepEqual(got, test.want) {
			t.Errorf("%s: %+v, %v, want %+v", test.arguments, got, err, test.want)
		}
	}
}

// A keeper has locks, and makes no checks.
type keeper struct {
	checker
	locks []davserve.Lock
}

// Backup implements control.Source.
func (k *keeper) Backup(context.Context, io.Writer) error { return davserve.ErrNoFolder }

// Locks implements control.Source.
func (k *keeper) Locks(context.Context) ([]davserve.Lock, error) { return k.locks, nil }

// RemoveLock implements control.Source.
func (k *keeper) RemoveLock(_ context.Context, token string) error {
	for i, lock := range k.locks {
		switch {
		case token == "urn:failing":
			return errors.New("it fails")
		case lock.Token == token:
			k.locks = append(k.locks[:i:i], k.locks[i+1:]...)
			return nil
		}
	}
	return davserve.ErrNoLock
}

// serveLocks answers at a socket as a server with locks, and returns its folder.
func serveLocks(t *testing.T, locks ...davserve.Lock) (folder string) {
	t.Helper()
	folder = t.TempDir()
	listener, err := control.Listen(socketIn(folder))
	if err != nil {
		t.Fatal(err)
	}
	server := control.Serve(context.Background(), listener, &keeper{locks: locks}, time.Minute, log.New(io.Discard, "", 0))
	t.Cleanup(func() { server.Close(context.Background()) })
	return folder
}

// A ran is what a command has left.
type ran struct {
	status      int
	said, wrong string
}

// davserveLocks runs davserve locks.
func davserveLocks(arguments ...string) ran {
	var said, wrong bytes.Buffer
	status := run(context.Background(), append([]string{"locks"}, arguments...), &said, &wrong)
	return ran{status, said.String(), wrong.String()}
}

func TestLocksAreListed(t *testing.T) {
	folder := serveLocks(t)
	if got, want := davserveLocks("list", "-folder", folder), (ran{said: "no locks\n"}); got != want {
		t.Errorf("without locks: %+v, want %+v", got, want)
	}
	if got, want := davserveLocks("list", "-json", "-folder", folder), (ran{said: "[]\n"}); got != want {
		t.Errorf("without locks, as JSON: %+v, want %+v", got, want)
	}
	locks := []davserve.Lock{{Token: "urn:1", Path: "/a"}, {Token: "urn:2", Path: "/"}}
	socket := socketIn(serveLocks(t, locks...))
	got := davserveLocks("list", "-socket", socket)
	if lines := strings.Count(got.said, "\n"); got.status != 0 || got.wrong != "" || lines != 3 {
		t.Errorf("two locks: %+v", got)
	}
	got = davserveLocks("list", "-json", "-socket", socket)
	var listed []davserve.Lock
	if err := json.Unmarshal([]byte(got.said), &listed); err != nil || !reflect.DeepEqual(listed, locks) {
		t.Errorf("two locks, as JSON: %+v, %v", got, err)
	}
}

func TestLocksAreRemoved(t *testing.T) {
	folder := serveLocks(t, davserve.Lock{Token: "urn:1"}, davserve.Lock{Token: "urn:2"}, davserve.Lock{Token: "urn:3"})
	tests := []struct {
		tokens string
		want   ran
	}{
		{"<urn:1>", ran{said: "urn:1: removed\n"}},
		{"urn:1 urn:2", ran{1, "urn:1: no lock has this token\nurn:2: removed\n", "davserve locks: not every token is that of a lock\n"}},
		{
			"urn:\x1b[31m urn:failing urn:3",
			ran{1, `"urn:\x1b[31m": no lock has this token` + "\n",
				"davserve locks: urn:failing: the server does not remove the lock: it fails (status 500)\n"},
		},
		{"urn:3", ran{said: "urn:3: removed\n"}},
	}
	for _, test := range tests {
		got := davserveLocks(append([]string{"remove", "-folder", folder}, strings.Fields(test.tokens)...)...)
		if got != test.want {
			t.Errorf("%q: %+v, want %+v", test.tokens, got, test.want)
		}
	}
}

func TestLocksOfNoServer(t *testing.T) {
	folder := t.TempDir()
	for _, arguments := range [][]string{{"list"}, {"list", "-json"}, {"remove", "urn:1"}} {
		got := davserveLocks(append(arguments, "-folder", folder)...)
		want := "no server answers at " + filepath.Join(folder, "control")
		if got.status != 1 || got.said != "" || !strings.Contains(got.wrong, want) {
			t.Errorf("%q: %+v", arguments, got)
		}
	}
}

func TestAnInterruptEndsDavserveLocks(t *testing.T) {
	ctx, cancel := context.WithCancel(context.Background())
	cancel()
	var said, wrong bytes.Buffer
	if status := run(ctx, []string{"locks", "list", "-folder", serveLocks(t)}, &said, &wrong); status != 1 {
		t.Errorf("status %d", status)
	}
	if wrong.String() != "davserve locks: it was interrupted\n" {
		t.Errorf("it says %q", wrong.String())
	}
}

func TestTheTableOfLocks(t *testing.T) {
	now := time.Date(2026, 11, 28, 21, 0, 0, 0, time.UTC)
	after := func(d time.Duration) *time.Time {
		at := now.Add(d).In(time.FixedZone("", 3600))
		return &at
	}
	ada, odd, dash := "ada", "x\x1b]0;\x07\u202e", "-"
	tests := []struct {
		lock davserve.Lock
		want string
	}{
		{
			davserve.Lock{Token: "urn:1", Path: "/a%20b/%C3%A9", Principal: &ada, Expires: after(90 * time.Second)},
			"/a b/\u00e9|ada|exclusive|2026-11-28 21:01:30 UTC, in 1m30s|urn:1",
		},
		{
			davserve.Lock{Token: "urn:2", Path: "/dav/", Deep: true, Expires: after(-time.Second)},
			"/dav/|-|exclusive, and below|2026-11-28 20:59:59 UTC, in 0s|urn:2",
		},
		{
			davserve.Lock{Token: "urn:3", Path: "/%1b[2J", Principal: &odd, Shared: true},
			`"/\x1b[2J"|"x\x1b]0;\a\u202e"|shared|never|urn:3`,
		},
		{
			davserve.Lock{Token: "a\tb", Path: "/%ff", Principal: &dash, Shared: true, Deep: true},
			`"/\xff"|"-"|shared, and below|never|"a\tb"`,
		},
		{davserve.Lock{Token: "urn:5", Path: "/%zz"}, "/%zz|-|exclusive|never|urn:5"},
		{davserve.Lock{}, `""|-|exclusive|never|""`},
		{davserve.Lock{Token: `"`, Path: "/a%0Ab%09c%7F"}, `"/a\nb\tc\x7f"|-|exclusive|never|"\""`},
	}
	for _, test := range tests {
		text, err := json.Marshal([]davserve.Lock{test.lock})
		if err != nil {
			t.Fatal(err)
		}
		var table bytes.Buffer
		if err := printLocks(&table, text, now); err != nil {
			t.Fatal(err)
		}
		lines := strings.Split(table.String(), "\n")
		if len(lines) != 3 || lines[2] != "" {
			t.Fatalf("%+v: the table is %q", test.lock, table.String())
		}
		for i, line := range []string{"PATH|USER|KIND|EXPIRES|TOKEN", test.want} {
			if got := cellsOf(lines[i]); got != line {
				t.Errorf("%+v: %s, want %s", test.lock, got, line)
			}
		}
	}
}

// cellsOf returns a line of a table with a bar between two cells.
func cellsOf(line string) string {
	var cells []string
	for _, cell := range strings.Split(line, "  ") {
		if cell = strings.TrimSpace(cell); cell != "" {
			cells = append(cells, cell)
		}
	}
	return strings.Join(cells, "|")
}

func TestNoTableOfWhatIsNoList(t *testing.T) {
	for _, text := range []string{"", "{}", "[1]", `[{"expires":"soon"}]`, "404 page not found"} {
		var table bytes.Buffer
		if err := printLocks(&table, []byte(text), time.Now()); err == nil || table.Len() > 0 {
			t.Errorf("%q: %v, %q", text, err, table.String())
		}
	}
}
