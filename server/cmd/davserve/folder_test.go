package main

import (
	"bytes"
	"context"
	"fmt"
	"io"
	"os"
	"path/filepath"
	"strings"
	"testing"
	"time"
)

// davdThat returns a program that runs a shell command, as davd.
func davdThat(t *testing.T, does string) string {
	t.Helper()
	program := filepath.Join(t.TempDir(), "davd")
	if err := os.WriteFile(program, []byte("#!/bin/sh\n"+does+"\n"), 0o700); err != nil {
		t.Fatal(err)
	}
	return program
}

func TestAFolderThatIsNotServedEndsTheServer(t *testing.T) {
	tests := []struct {
		status int
		says   string
	}{
		{2, "davd rejects its arguments (exit status 2)"},
		{4, "the folder is refused (exit status 4)"},
		{5, "the folder is in use by another process (exit status 5)"},
		{6, "the folder cannot be read or written (exit status 6)"},
	}
	for _, test := range tests {
		folder := t.TempDir()
		davd := davdThat(t, fmt.Sprintf("for folder; do :; done; echo \"davd: this is why: $folder\" >&2; exit %d", test.status))
		var said bytes.Buffer
		arguments := []string{"-listen", "127.0.0.1:0", "-davd", davd, "-folder", folder}
		if status := run(context.Background(), arguments, io.Discard, &said); status != 1 {
			t.Errorf("davd ends with %d: status %d, want 1", test.status, status)
		}
		for _, want := range []string{"davserve: davd cannot serve the folder " + folder, test.says, "this is why: " + folder} {
			if !strings.Contains(said.String(), want) {
				t.Errorf("davd ends with %d: it says %q, without %q", test.status, said.String(), want)
			}
		}
	}
}

func TestAnInterruptEndsTheServerWhileDavdLoads(t *testing.T) {
	ctx, cancel := context.WithCancel(context.Background())
	time.AfterFunc(50*time.Millisecond, cancel)
	davd := davdThat(t, "exec sleep 60")
	arguments := []string{"-listen", "127.0.0.1:0", "-davd", davd, "-folder", t.TempDir()}
	began := time.Now()
	if status := run(ctx, arguments, io.Discard, io.Discard); status != 0 {
		t.Errorf("status %d, want 0", status)
	}
	if took := time.Since(began); took > 10*time.Second {
		t.Errorf("it took %v", took)
	}
}
