package main

import (
	"bytes"
	"context"
	"errors"
	"io"
	"log"
	"os"
	"path/filepath"
	"strings"
	"syscall"
	"testing"

	"davserve"
	"davserve/internal/davd"
	"davserve/internal/frame"
)

func TestParseCheckRefuses(t *testing.T) {
	tests := []struct {
		arguments []string
		says      string
	}{
		{nil, "davserve rights check FILE USER PATH"},
		{[]string{"show", "f", "ada", "/"}, "davserve rights check FILE USER PATH"},
		{[]string{"check"}, "needs a FILE, a USER and a PATH"},
		{[]string{"check", "f", "ada"}, "needs a FILE, a USER and a PATH"},
		{[]string{"check", "f", "ada", "/", "/a"}, "needs a FILE, a USER and a PATH"},
		{[]string{"check", "", "ada", "/"}, "FILE is empty"},
		{[]string{"check", "f", "", "/"}, "USER is empty"},
		{[]string{"check", "f", "ada", "a"}, "does not begin with a slash"},
		{[]string{"check", "f", "ada", "/a?b"}, "%3F or %23"},
		{[]string{"check", "f", "ada", "/#recycle"}, "%3F or %23"},
		{[]string{"check", "-davd=", "f", "ada", "/"}, "the name is empty"},
		{[]string{"check", "f", "ada", "/", "-listen", ":1"}, "not defined"},
	}
	for _, test := range tests {
		var said bytes.Buffer
		if _, err := parseCheck(test.arguments, &said); err == nil {
			t.Errorf("%q is accepted", test.arguments)
		}
		if !strings.Contains(said.String(), test.says) {
			t.Errorf("%q: it says %q, without %q", test.arguments, said.String(), test.says)
		}
	}
}

func TestParseCheckAccepts(t *testing.T) {
	want := checkConfig{davd: "d", file: "rules.toml", user: "ada", path: "/a%20b"}
	for _, arguments := range []string{
		"check rules.toml ada /a%20b -davd d",
		"check -davd d rules.toml ada /a%20b",
		"-davd d check rules.toml ada /a%20b",
		"check rules.toml -davd=d ada /a%20b",
		"check -davd d -- rules.toml ada /a%20b",
	} {
		if got, err := parseCheck(strings.Fields(arguments), io.Discard); err != nil || got != want {
			t.Errorf("%s: %+v, %v, want %+v", arguments, got, err, want)
		}
	}
}

func TestSentence(t *testing.T) {
	three := uint64(3)
	tests := []struct {
		user      string
		explained frame.Explained
		want      string
	}{
		{"ada", frame.Explained{Rule: &three, List: true, Read: true}, "rule 3 decides: ada may list and read /a"},
		{"ada", frame.Explained{Rule: &three, Write: true}, "rule 3 decides: ada may write /a"},
		{"ada", frame.Explained{Rule: &three, List: true, Read: true, Write: true}, "rule 3 decides: ada may list, read and write /a"},
		{"ada", frame.Explained{Rule: &three}, "rule 3 decides: ada may do nothing at /a"},
		{"ada", frame.Explained{}, "no rule decides: ada may do nothing at /a"},
		{"ada", frame.Explained{List: true}, "no rule decides: ada may list /a, because a rule allows something below it"},
		{"-", frame.Explained{}, "no rule decides: a request without a user may do nothing at /a"},
	}
	for _, test := range tests {
		c := checkConfig{user: test.user, path: "/a"}
		if got := c.sentence(test.explained); got != test.want {
			t.Errorf("%q, want %q", got, test.want)
		}
	}
}

// fileOf returns the name of a new file with this text.
func fileOf(t *testing.T, text string) string {
	t.Helper()
	file := filepath.Join(t.TempDir(), "rules.toml")
	if err := os.WriteFile(file, []byte(text), 0o600); err != nil {
		t.Fatal(err)
	}
	return file
}

func TestReadRights(t *testing.T) {
	for text, want := range map[string]string{"": "\n", "\n": "\n", "[[rule]]\n": "[[rule]]\n", "a\u00e9": "a\u00e9"} {
		if got, err := readRights(fileOf(t, text)); err != nil || got != want {
			t.Errorf("%q: %q, %v, want %q", text, got, err, want)
		}
	}
	file := fileOf(t, "a\xff")
	if _, err := readRights(file); err == nil || err.Error() != file+": it is not UTF-8" {
		t.Errorf("a file that is not UTF-8: %v", err)
	}
	if _, err := readRights("/no/such/file"); !errors.Is(err, os.ErrNotExist) {
		t.Errorf("no file: %v", err)
	}
}

func TestAnErrorNamesTheFile(t *testing.T) {
	refused := &davserve.RightsError{Reason: "rule 3: allow is a list"}
	if err := inFile("rules.toml", refused); err.Error() != "rules.toml: rule 3: allow is a list" {
		t.Errorf("a text that was refused: %v", err)
	}
	refused = &davserve.RightsError{Reason: "TOML parse error at line 1, column 5\ninvalid value\n"}
	if err := inFile("rules.toml", refused); err.Error() != "rules.toml: TOML parse error at line 1, column 5: invalid value" {
		t.Errorf("a reason of two lines: %v", err)
	}
	if err := inFile("rules.toml", davd.ErrClosed); err != davd.ErrClosed {
		t.Errorf("another error: %v", err)
	}
	if err := inFile("rules.toml", nil); err != nil {
		t.Errorf("no error: %v", err)
	}
}

func TestCheckNamesARuleWithoutItsPath(t *testing.T) {
	program := os.Getenv("DAVD")
	if program == "" {
		program = "../../../crates/davd/out/davd"
	}
	if _, err := os.Stat(program); err != nil {
		t.Skipf("no davd: %v", err)
	}
	const all = "[[rule]]\neveryone = true\nat_and_below = \"/\"\nallow = [\"list\"]\n"
	for path, status := range map[string]int{
		"/recycle": 0, "/%23recycle/": 0, "/#recycle": 1, "/a?b": 1, "/a//b": 1, "/a/../b": 1, "/a/%2e": 1, "recycle": 1,
	} {
		file := fileOf(t, all+"[[rule]]\neveryone = true\nat_and_below = \""+path+"\"\nallow = []\n")
		var output, errorOutput bytes.Buffer
		got := runRights(context.Background(), []string{"check", "-davd", program, file, "ada", "/"}, &output, &errorOutput)
		if got != status {
			t.Errorf("%q: exit status %d, want %d", path, got, status)
		}
		want := file + ": rule 2: a rule has one of at and at_and_below, a path: "
		if status == 1 && (output.Len() != 0 || !strings.Contains(errorOutput.String(), want)) {
			t.Errorf("%q: it says %q and %q, without %q", path, output.String(), errorOutput.String(), want)
		}
		if status == 0 && output.String() != "rule 1 decides: ada may list /\n" {
			t.Errorf("%q: it says %q", path, output.String())
		}
	}
}

// A recorder takes the rules that it gets, or refuses them.
type recorder struct {
	texts chan string
	err   error
}

// SetRights implements setter.
func (r *recorder) SetRights(_ context.Context, text string) error {
	r.texts <- text
	return r.err
}

func TestASIGHUPHasTheRulesReadAgain(t *testing.T) {
	file := fileOf(t, "one")
	var said bytes.Buffer
	r := newReloader(file, log.New(&said, "", 0))
	ctx, cancel := context.WithCancel(context.Background())
	taken := &recorder{texts: make(chan string)}
	r.start(ctx, taken)
	for _, text := range []string{"two", "three"} {
		if err := os.WriteFile(file, []byte(text), 0o600); err != nil {
			t.Fatal(err)
		}
		if err := syscall.Kill(os.Getpid(), syscall.SIGHUP); err != nil {
			t.Fatal(err)
		}
		if got := <-taken.texts; got != text {
			t.Errorf("the rules are %q, want %q", got, text)
		}
	}
	cancel()
	r.end()
}

func TestTheLogSaysWhetherTheRulesHold(t *testing.T) {
	tests := []struct {
		text, want string
		err        error
	}{
		{"[[rule]]", "the access rules of FILE hold from now on\n", nil},
		{"[[rule]]", "the access rules stay as they were: FILE: rule 1: why\n", &davserve.RightsError{Reason: "rule 1: why"}},
		{"[[rule]]", "the access rules stay as they were: the engine is closed\n", davd.ErrClosed},
		{"[[rule]]", "the access rules of FILE hold from now on, or the old ones: davd has no memory. Send SIGHUP again.\n",
			&davd.StatusError{Status: 507}},
		{"\xff", "the access rules stay as they were: FILE: it is not UTF-8\n", nil},
	}
	for _, test := range tests {
		file := fileOf(t, test.text)
		var said bytes.Buffer
		r := newReloader(file, log.New(&said, "", 0))
		r.reload(context.Background(), &recorder{texts: make(chan string, 1), err: test.err})
		r.end()
		if want := strings.ReplaceAll(test.want, "FILE", file); said.String() != want {
			t.Errorf("the log is %q, want %q", said.String(), want)
		}
	}
}

func TestWithoutRulesThereIsNoReloader(t *testing.T) {
	r := newReloader("", log.New(io.Discard, "", 0))
	r.start(context.Background(), nil)
	r.end()
	if r != nil {
		t.Error("a reloader has no file")
	}
}
