package davserve

import (
	"bytes"
	"context"
	"errors"
	"fmt"
	"net/http/httptest"
	"os"
	"path/filepath"
	"reflect"
	"strings"
	"testing"

	"davserve/internal/davd"
)

// hiding are access rules by which everyone may write everything, and see only some of it.
const hiding = `
[[rule]]
everyone = true
at_and_below = "/"
allow = ["list", "read", "write"]

[[rule]]
everyone = true
at_and_below = "/d/hidden"
allow = ["write"]

[[rule]]
everyone = true
at_and_below = "/{user}"
allow = []
`

// flip flips a bit of what a file contains in the data file of a folder.
func flip(t *testing.T, folder, content string) {
	t.Helper()
	name := filepath.Join(folder, "data")
	data, err := os.ReadFile(name)
	if err != nil {
		t.Fatal(err)
	}
	at := bytes.Index(data, []byte(content))
	if at < 0 || bytes.Count(data, []byte(content)) != 1 {
		t.Fatalf("%q is in data %d times", content, bytes.Count(data, []byte(content)))
	}
	file, err := os.OpenFile(name, os.O_WRONLY, 0)
	if err != nil {
		t.Fatal(err)
	}
	defer file.Close()
	if _, err := file.WriteAt([]byte{data[at] ^ 1}, int64(at)); err != nil {
		t.Fatal(err)
	}
}

// mkcol makes a collection.
func mkcol(t *testing.T, handler *Handler, path string) {
	t.Helper()
	recorder := httptest.NewRecorder()
	handler.ServeHTTP(recorder, httptest.NewRequest("MKCOL", path, nil))
	if recorder.Code != 201 {
		t.Fatalf("MKCOL %s: status %d", path, recorder.Code)
	}
}

// found checks all files, and returns the state and what was found.
func found(t *testing.T, handler *Handler) (CheckState, []string) {
	t.Helper()
	var all []string
	state, err := handler.CheckFiles(context.Background(), CheckOptions{
		Report: func(f CheckFinding) { all = append(all, fmt.Sprint(f.Kind, " ", f.Path)) },
	})
	if err != nil || state.State != "done" || state.Ended == nil {
		t.Errorf("CheckFiles: %+v, %v", state, err)
	}
	return state, all
}

func TestEveryFileIsChecked(t *testing.T) {
	for _, test := range []struct{ prefix, rights string }{{"", ""}, {"/dav", hiding}} {
		t.Run(test.prefix, func(t *testing.T) {
			folder := t.TempDir()
			handler := startHandler(t, Options{Folder: folder, Prefix: test.prefix, Rights: test.rights})
			total, p := int64(0), test.prefix
			mkcol(t, handler, p+"/d")
			for _, path := range []string{"/a", "/d/%C3%A9%20%25", "/d/hidden", "/d/'(~)'"} {
				content := "this is " + path
				put(t, handler, p+path, content)
				total += int64(len(content))
			}
			long := strings.Repeat("x", 2*piece) + "this is long" + strings.Repeat("y", piece)
			put(t, handler, p+"/long", long)
			put(t, handler, p+"/empty", "")
			total += int64(len(long))
			if state, all := found(t, handler); state.CheckCounts != (CheckCounts{Files: 6, Bytes: total}) || all != nil {
				t.Errorf("%+v, %q", state, all)
			}
			flip(t, folder, "this is long")
			flip(t, folder, "this is /d/hidden")
			want := []string{"damaged " + p + "/d/hidden", "damaged " + p + "/long"}
			state, all := found(t, handler)
			if state.Files != 4 || state.Damaged != 2 || !reflect.DeepEqual(all, want) {
				t.Errorf("%+v, %q, want %q", state, all, want)
			}
			put(t, handler, p+"/long", "mended")
			flip(t, folder, "uhis is /d/hidden")
			if state, all := found(t, handler); state.Files != 6 || all != nil {
				t.Errorf("%+v, %q", state, all)
			}
		})
	}
}

func TestTheLastCheckIsInTheMetrics(t *testing.T) {
	folder := t.TempDir()
	handler := startHandler(t, Options{Folder: folder})
	put(t, handler, "/a", "this is a")
	put(t, handler, "/b", "this is b")
	wants := func(lines ...string) {
		t.Helper()
		text := metricsOf(t, handler)
		for _, line := range lines {
			if !hasLine(text, line) {
				t.Errorf("no line %q in\n%s", line, text)
			}
		}
	}
	wants("davserve_check_running 0\n", `davserve_checks_total{result="right"} 0`+"\n")
	if text := metricsOf(t, handler); hasLine(text, "davserve_check_files") {
		t.Errorf("before a check the metrics are\n%s", text)
	}
	found(t, handler)
	wants("davserve_check_files 2\n", "davserve_check_bytes 18\n", "davserve_check_damaged_files 0\n",
		`davserve_checks_total{result="right"} 1`+"\n", "davserve_check_end_time_seconds ", "davserve_check_duration_seconds ")
	flip(t, folder, "this is a")
	found(t, handler)
	damaged := []string{
		"davserve_check_files 1\n", "davserve_check_damaged_files 1\n", `davserve_checks_total{result="damaged"} 1` + "\n",
	}
	wants(damaged...)
	ctx, cancel := context.WithCancel(context.Background())
	state, err := handler.CheckFiles(ctx, CheckOptions{Progress: func(CheckState) {
		wants("davserve_check_running 1\n")
		cancel()
	}})
	if !errors.Is(err, context.Canceled) || state.State != "failed" || state.Error != "it was interrupted" {
		t.Errorf("%+v, %v", state, err)
	}
	if got := handler.Checked(); !reflect.DeepEqual(got, state) {
		t.Errorf("%+v, want %+v", got, state)
	}
	wants(append(damaged, `davserve_checks_total{result="failed"} 1`+"\n")...)
}

func TestOneCheckAtATime(t *testing.T) {
	handler := startHandler(t, Options{Folder: t.TempDir()})
	put(t, handler, "/a", "this is a")
	if state := handler.Checked(); state.State != "none" {
		t.Errorf("before: %+v", state)
	}
	tried := false
	_, err := handler.CheckFiles(context.Background(), CheckOptions{Progress: func(state CheckState) {
		tried = true
		other, err := handler.CheckFiles(context.Background(), CheckOptions{})
		if !errors.Is(err, ErrInCheck) || other.State != "running" || state.State != "running" || other.Ended != nil {
			t.Errorf("the second: %+v, %v", other, err)
		}
	}})
	if err != nil || !tried {
		t.Errorf("the first: %v", err)
	}
	if _, all := found(t, handler); all != nil {
		t.Errorf("after that: %q", all)
	}
}

func TestWithoutAFolderNothingIsChecked(t *testing.T) {
	handler := startHandler(t, Options{})
	if state, err := handler.CheckFiles(context.Background(), CheckOptions{}); !errors.Is(err, ErrNothingOnDisk) || state.Ended != nil {
		t.Errorf("%+v, %v", state, err)
	}
	if hasLine(metricsOf(t, handler), "davserve_check") {
		t.Error("there are metrics of checks")
	}
}

func TestACheckOfAClosedHandlerEnds(t *testing.T) {
	handler := startHandler(t, Options{Folder: t.TempDir()})
	if err := handler.Close(context.Background()); err != nil {
		t.Fatal(err)
	}
	if state, err := handler.CheckFiles(context.Background(), CheckOptions{}); !errors.Is(err, davd.ErrClosed) || state.State != "failed" {
		t.Errorf("%+v, %v", state, err)
	}
}

func TestACheckThatPanicsHasEnded(t *testing.T) {
	handler := startHandler(t, Options{Folder: t.TempDir()})
	put(t, handler, "/a", "this is a file")
	expectPanic(t, "a wrong index", func() {
		handler.CheckFiles(context.Background(), CheckOptions{Progress: func(CheckState) { panic("a wrong index") }})
	})
	if state := handler.Checked(); state.State != "failed" || state.Error != errBroken.Error() {
		t.Errorf("after a panic: %+v", state)
	}
	found(t, handler)
}
