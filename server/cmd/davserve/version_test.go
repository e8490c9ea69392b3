package main

import (
	"bytes"
	"context"
	"io"
	"regexp"
	"runtime/debug"
	"testing"
)

func TestRevision(t *testing.T) {
	const commit = "0123456789abcdef0123456789abcdef01234567"
	tests := []struct {
		name     string
		settings []debug.BuildSetting
		want     string
	}{
		{"none", nil, ""},
		{"other settings", []debug.BuildSetting{{Key: "vcs", Value: "git"}, {Key: "vcs.modified", Value: "true"}}, ""},
		{"a commit", []debug.BuildSetting{{Key: "vcs.revision", Value: commit}, {Key: "vcs.modified", Value: "false"}}, commit[:12]},
		{
			"a changed one", []debug.BuildSetting{{Key: "vcs.modified", Value: "true"}, {Key: "vcs.revision", Value: commit}},
			commit[:12] + "-modified",
		},
		{"a short one", []debug.BuildSetting{{Key: "vcs.revision", Value: "17"}}, "17"},
	}
	for _, test := range tests {
		if got := revision(test.settings); got != test.want {
			t.Errorf("%s: %q, want %q", test.name, got, test.want)
		}
	}
}

func TestVersionLine(t *testing.T) {
	tests := []struct{ commit, want string }{
		{"", "davserve " + version + " (go1.19)"},
		{"0123456789ab", "davserve " + version + " (0123456789ab, go1.19)"},
	}
	for _, test := range tests {
		if got := versionLine(test.commit, "go1.19"); got != test.want {
			t.Errorf("%q, want %q", got, test.want)
		}
	}
}

func TestVersionIsPrinted(t *testing.T) {
	var said bytes.Buffer
	if status := run(context.Background(), []string{"-version"}, &said, io.Discard); status != 0 {
		t.Errorf("status %d", status)
	}
	if line := regexp.MustCompile(`^davserve [0-9]+\.[0-9]+\.[0-9]+(-dev)? \(.*go[0-9.]+.*\)\n$`); !line.MatchString(said.String()) {
		t.Errorf("it says %q", said.String())
	}
}
