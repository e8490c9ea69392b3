package main

import (
	"bytes"
	"context"
	"io"
	"net"
	"path/filepath"
	"strings"
	"testing"
)

func TestParseBackupRefuses(t *testing.T) {
	tests := []struct{ arguments, says string }{
		{"", "one of -folder and -socket"},
		{"target", "one of -folder and -socket"},
		{"-folder f -socket s target", "one of -folder and -socket"},
		{"-folder= target", "the name is empty"},
		{"-socket= target", "the name is empty"},
		{"-folder f", "one TARGET"},
		{"-folder f one two", "one TARGET"},
		{"-folder f target -socket s", "one TARGET"},
		{"-listen :1 target", "not defined"},
	}
	for _, test := range tests {
		var said bytes.Buffer
		if _, err := parseBackup(strings.Fields(test.arguments), &said); err == nil {
			t.Errorf("%s is accepted", test.arguments)
		}
		if !strings.Contains(said.String(), test.says) {
			t.Errorf("%s: it says %q, without %q", test.arguments, said.String(), test.says)
		}
	}
}

func TestParseBackupAccepts(t *testing.T) {
	tests := []struct {
		arguments string
		want      backupConfig
	}{
		{"-folder /srv/dav /backup/1", backupConfig{socket: "/srv/dav/control", target: "/backup/1"}},
		{"-folder dav/ target/", backupConfig{socket: "dav/control", target: "target/"}},
		{"-socket /run/davserve target", backupConfig{socket: "/run/davserve", target: "target"}},
	}
	for _, test := range tests {
		if got, err := parseBackup(strings.Fields(test.arguments), io.Discard); err != nil || got != test.want {
			t.Errorf("%s: %+v, %v, want %+v", test.arguments, got, err, test.want)
		}
	}
}

func TestTheHelpNamesEachCommand(t *testing.T) {
	for arguments, wants := range map[string][]string{
		"-h": {
			"davserve backup [-folder FOLDER | -socket PATH] TARGET", "davserve locks list", "davserve locks remove",
			"davserve check [-folder FOLDER | -socket PATH] [-rate SIZE] [-quiet]",
			"davserve import", "davserve export", "davserve rights check", "davserve setup -user NAME", "-listen",
		},
		"backup -h": {"davserve backup [-folder FOLDER | -socket PATH] TARGET", "-socket path", "exit status"},
		"check -h":  {"davserve check [-folder FOLDER | -socket PATH] [-rate SIZE] [-quiet]", "(default 32M)", "exit status"},
		"locks -h": {
			"davserve locks list [-folder FOLDER | -socket PATH] [-json]",
			"davserve locks remove [-folder FOLDER | -socket PATH] TOKEN...", "-socket path", "-json", "exit status",
		},
		"import -h": {"davserve import -folder FOLDER [-davd PROGRAM] [-quiet] DIR [PATH]", "-davd program", "exit status"},
		"export -h": {"davserve export -folder FOLDER [-davd PROGRAM] [-quiet] DIR [PATH]", "-davd program", "exit status"},
		"setup -h":  {"davserve setup -user NAME", "-host name", "-no-start", "-options file", "exit status"},
		"rights -h": {"davserve rights check [-davd PROGRAM] FILE USER PATH", "-davd program", "exit status"},
	} {
		var said bytes.Buffer
		run(context.Background(), strings.Fields(arguments), io.Discard, &said)
		for _, want := range wants {
			if !strings.Contains(said.String(), want) {
				t.Errorf("davserve %s: it says %q, without %q", arguments, said.String(), want)
			}
		}
	}
}

func TestAnInterruptEndsABackup(t *testing.T) {
	folder := t.TempDir()
	listener, err := net.Listen("unix", filepath.Join(folder, "control")) // It never answers.
	if err != nil {
		t.Fatal(err)
	}
	defer listener.Close()
	ctx, cancel := context.WithCancel(context.Background())
	go func() {
		listener.Accept()
		cancel()
	}()
	var said bytes.Buffer
	target := filepath.Join(folder, "target")
	if status := run(ctx, []string{"backup", "-folder", folder, target}, io.Discard, &said); status != 1 {
		t.Errorf("status %d, want 1", status)
	}
	if said.String() != "davserve backup: it was interrupted\n" {
		t.Errorf("it says %q", said.String())
	}
}
