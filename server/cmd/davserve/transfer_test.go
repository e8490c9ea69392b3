package main

import (
	"bytes"
	"context"
	"io"
	"os"
	"path/filepath"
	"strings"
	"sync"
	"sync/atomic"
	"testing"
	"time"

	"davserve/internal/clock"
	"davserve/internal/transfer"
)

func TestParseTransferRefuses(t *testing.T) {
	tests := []struct{ arguments, says string }{
		{"", "it needs -folder"},
		{"dir", "it needs -folder"},
		{"-folder= dir", "the name is empty"},
		{"-davd= -folder f dir", "the name is empty"},
		{"-folder f", "one DIR"},
		{"-folder f dir /path more", "one DIR"},
		{"-folder f dir path", "begins with a slash"},
		{"-folder f dir /a/../b", "no . or .."},
		{"-folder f dir /a%zz", "two hexadecimal digits"},
		{"-prefix /dav -folder f dir", "not defined"},
		{"-max-clock-change 0 -folder f dir", "-max-clock-change"}, // An export does not have it.
	}
	for _, command := range []*transferCommand{&imports, &exports} {
		for _, test := range tests {
			var said bytes.Buffer
			if _, err := command.parse(strings.Fields(test.arguments), &said); err == nil {
				t.Errorf("%s %s is accepted", command.name, test.arguments)
			}
			if !strings.Contains(said.String(), test.says) {
				t.Errorf("%s %s: it says %q, without %q", command.name, test.arguments, said.String(), test.says)
			}
		}
	}
}

func TestParseTransferAccepts(t *testing.T) {
	here, err := os.Getwd()
	if err != nil {
		t.Fatal(err)
	}
	davd := defaultDavd()
	tests := []struct {
		arguments string
		want      transferConfig
	}{
		{"-folder /srv/dav dir", transferConfig{davd: davd, folder: "/srv/dav", dir: "dir", path: "/"}},
		{"dir -folder f -quiet", transferConfig{davd: davd, folder: here + "/f", dir: "dir", path: "/", quiet: true}},
		{"-davd d -folder /f dir/ /a%20b/", transferConfig{davd: "d", folder: "/f", dir: "dir/", path: "/a%20b"}},
		{"-max-clock-change 1h -folder /f dir", transferConfig{davd: davd, folder: "/f", dir: "dir", path: "/", change: time.Hour}},
	}
	for _, test := range tests {
		if test.want.change == 0 {
			test.want.change = clock.MaxChange
		}
		if got, err := imports.parse(strings.Fields(test.arguments), io.Discard); err != nil || got != test.want {
			t.Errorf("%s: %+v, %v, want %+v", test.arguments, got, err, test.want)
		}
	}
}

func TestWhatIsNotThereIsRefusedBeforeAStart(t *testing.T) {
	folder := t.TempDir()
	for arguments, says := range map[string]string{
		"import -davd none -folder " + folder + "/new " + folder + "/dir": "dir: no such file or directory",
		"import -davd none -folder " + folder + "/new /dev/null":          "/dev/null is not a directory",
		"export -davd none -folder " + folder + " " + folder + "/dir":     "is not the folder of a server: it has no meta.db",
		"import -davd none -folder " + folder + "/new " + folder:          "davd cannot be started",
	} {
		var said bytes.Buffer
		if status := run(context.Background(), strings.Fields(arguments), io.Discard, &said); status != 1 {
			t.Errorf("%s: status %d, want 1", arguments, status)
		}
		if !strings.Contains(said.String(), says) {
			t.Errorf("%s: it says %q, without %q", arguments, said.String(), says)
		}
	}
	if found, err := filepath.Glob(folder + "/*"); err != nil || len(found) != 0 {
		t.Errorf("there are %v, %v", found, err)
	}
}

func TestAFolderInUseIsRefused(t *testing.T) {
	dir, davd := t.TempDir(), davdThat(t, "exit 5")
	var said bytes.Buffer
	arguments := []string{"import", "-davd", davd, "-folder", t.TempDir(), dir}
	if status := run(context.Background(), arguments, io.Discard, &said); status != 1 {
		t.Errorf("status %d, want 1", status)
	}
	if want := "the folder is in use by another process (exit status 5): stop its server first\n"; !strings.HasSuffix(said.String(), want) {
		t.Errorf("it says %q, without %q", said.String(), want)
	}
}

func TestAnInterruptEndsAnImportWhileDavdLoads(t *testing.T) {
	ctx, cancel := context.WithCancel(context.Background())
	time.AfterFunc(50*time.Millisecond, cancel)
	var said bytes.Buffer
	arguments := []string{"import", "-davd", davdThat(t, "exec sleep 60"), "-folder", t.TempDir(), t.TempDir()}
	if status := run(ctx, arguments, io.Discard, &said); status != 1 {
		t.Errorf("status %d, want 1", status)
	}
	if said.String() != "davserve import: it was interrupted: run it again to go on\n" {
		t.Errorf("it says %q", said.String())
	}
}

func TestTheSummarySaysWhatWasDone(t *testing.T) {
	var p transfer.Progress
	p.Files.Store(1204)
	p.Bytes.Store(4_500_000_000)
	p.Directories.Store(80)
	want := "imported 1204 files (4.5 GB) and 80 directories in 35s; 0 skipped as they were there"
	if got := imports.summary(&p, 35*time.Second+4*time.Millisecond); got != want {
		t.Errorf("%q, want %q", got, want)
	}
	p = transfer.Progress{}
	p.Files.Store(1)
	p.Bytes.Store(1)
	p.Directories.Store(1)
	p.Skipped.Store(7)
	want = "exported 1 file (1 byte) and 1 directory in 1.23s; 7 skipped as they were there"
	if got := exports.summary(&p, 1234*time.Millisecond); got != want {
		t.Errorf("%q, want %q", got, want)
	}
}

func TestTheProgressLine(t *testing.T) {
	var p transfer.Progress
	p.Files.Store(3)
	p.Bytes.Store(4_000_000)
	p.Skipped.Store(2)
	p.Passed.Store(1_000_000)
	for total, want := range map[int64]string{
		0:          "5 files, 5.0 MB, 2.0 MB/s",
		20_000_000: "5 files, 5.0 MB, 2.0 MB/s, 25%",
		4_000_000:  "5 files, 5.0 MB, 2.0 MB/s, 100%",
	} {
		if got := progressLine(&p, total, 2e6); got != want {
			t.Errorf("of %d: %q, want %q", total, got, want)
		}
	}
}

// A lockedBuffer may be written and read at the same time.
type lockedBuffer struct {
	mu     sync.Mutex
	buffer bytes.Buffer
}

func (b *lockedBuffer) Write(p []byte) (int, error) {
	b.mu.Lock()
	defer b.mu.Unlock()
	return b.buffer.Write(p)
}

func (b *lockedBuffer) String() string {
	b.mu.Lock()
	defer b.mu.Unlock()
	return b.buffer.String()
}

func TestAScreenHasItsMessagesInThePlaceOfTheProgress(t *testing.T) {
	var said lockedBuffer
	s := newScreen(&said, false)
	if s.shows {
		t.Error("a buffer is a terminal")
	}
	s.shows = true
	var done atomic.Int64
	measured := func(context.Context) int64 { return 10 }
	line := func(total int64, _ float64) string { return strings.Repeat("=", int(total)) }
	stop := s.show(context.Background(), line, measured, &done)
	shown := eraseLine + "=========="
	for deadline := time.Now().Add(time.Minute); !strings.HasSuffix(said.String(), shown+shown); {
		if time.Now().After(deadline) {
			t.Fatalf("%q after a minute", said.String())
		}
		time.Sleep(showPause / 10)
	}
	s.say("%d failed", 1)
	stop()
	got := said.String()
	if want := shown + eraseLine + "1 failed\n"; !strings.Contains(got, want) {
		t.Errorf("%q, want %q in it", got, want)
	}
	if !strings.HasSuffix(got, "failed\n") && !strings.HasSuffix(got, eraseLine) {
		t.Errorf("%q ends with a line of progress", got)
	}
}

func TestAQuietScreenHasNoProgress(t *testing.T) {
	var said lockedBuffer
	s := newScreen(&said, true)
	s.show(context.Background(), nil, nil, nil)()
	if s.say("one"); said.String() != "one\n" {
		t.Errorf("%q", said.String())
	}
}
