package transfer

import (
	"context"
	"errors"
	"fmt"
	"io/fs"
	"os"
	"path/filepath"
	"reflect"
	"strings"
	"testing"
	"time"

	"davserve/internal/davd"
)

// exportTree exports from a store, and returns what was counted and reported.
func exportTree(f *fake, dir, path string) (*Progress, reports, error) {
	progress, said := new(Progress), reports{}
	err := Export(context.Background(), Options{Store: f, Dir: dir, Path: path, Progress: progress, Report: said.add})
	return progress, said, err
}

// contentOf returns what a folder has: each path, with the bytes and the time.
func contentOf(t *testing.T, dir string) map[string]string {
	t.Helper()
	found := map[string]string{}
	err := filepath.WalkDir(dir, func(path string, entry fs.DirEntry, err error) error {
		if err != nil {
			return err
		}
		info, err := entry.Info()
		if err != nil {
			return err
		}
		name := strings.TrimPrefix(path, dir)
		switch {
		case entry.IsDir():
			found[name+"/"] = fmt.Sprint(info.ModTime().Unix())
		case entry.Type().IsRegular():
			bytes, err := os.ReadFile(path)
			if err != nil {
				return err
			}
			found[name] = fmt.Sprintf("%d %s", info.ModTime().Unix(), bytes)
		default:
			found[name] = entry.Type().String()
		}
		return nil
	})
	if err != nil {
		t.Fatal(err)
	}
	return found
}

func TestExportReturnsWhatWasImported(t *testing.T) {
	f := newFake()
	importTree(t, f, tree(t, sample), "/a")
	dir := filepath.Join(t.TempDir(), "new")
	progress, said, err := exportTree(f, dir, "/a")
	if err != nil || len(said) != 0 || counts(progress) != [4]int64{8, 0, 0, 5} {
		t.Fatalf("%v, %v, %v", err, said, counts(progress))
	}
	if got := contentOf(t, dir); !reflect.DeepEqual(got, stored()) {
		t.Errorf("the folder has %.400v, want %.400v", got, stored())
	}
	reads := f.count("READ")
	progress, said, err = exportTree(f, dir, "/a")
	if err != nil || len(said) != 0 || counts(progress) != [4]int64{0, 8, 0, 0} || f.count("READ") != reads {
		t.Errorf("a second export: %v, %v, %v", err, said, counts(progress))
	}
	if got := contentOf(t, dir); !reflect.DeepEqual(got, stored()) {
		t.Errorf("after a second export the folder has %.400v", got)
	}
}

func TestExportReplacesWhatChangedAndRemovesNothing(t *testing.T) {
	f := newFake()
	f.file("/a", "store", 100)
	f.file("/b", "store", 200)
	f.file("/c", "store", 300)
	dir := tree(t, map[string]string{"a": "100 long and other", "b": "201 other", "c": "300 stays", "d": "400 stays"})
	progress, said, err := exportTree(f, dir, "/")
	want := map[string]string{"/": "1", "/a": "100 store", "/b": "200 store", "/c": "300 stays", "/d": "400 stays"}
	if got := contentOf(t, dir); err != nil || len(said) != 0 || !reflect.DeepEqual(got, want) {
		t.Errorf("%v, %v, the folder has %v, want %v", err, said, got, want)
	}
	if counts(progress) != [4]int64{2, 1, 0, 0} {
		t.Errorf("counts %v", counts(progress))
	}
}

func TestExportWritesNothingThroughALink(t *testing.T) {
	f := newFake()
	f.file("/file", "store", 100)
	f.file("/directory/file", "store", 100)
	f.file("/deep/directory/file", "store", 100)
	f.file("/other", "store", 100)
	outside := tree(t, map[string]string{"file": "50 outside", "./": "60"})
	dir := tree(t, map[string]string{"deep/": "1"})
	for name, to := range map[string]string{"file": outside + "/file", "directory": outside, "deep/directory": outside} {
		if err := os.Symlink(to, filepath.Join(dir, name)); err != nil {
			t.Fatal(err)
		}
	}
	_, said, err := exportTree(f, dir, "/")
	want := reports{}
	for _, name := range []string{"/file", "/directory", "/deep/directory"} {
		want[name] = dir + name + " is a symbolic link"
	}
	if err != nil || !reflect.DeepEqual(said, want) {
		t.Errorf("%v, it reports %v, want %v", err, said, want)
	}
	if got := contentOf(t, outside); !reflect.DeepEqual(got, map[string]string{"/": "60", "/file": "50 outside"}) {
		t.Errorf("outside is %v", got)
	}
	if got := contentOf(t, dir); got["/other"] != "100 store" || got["/file"] != "L---------" {
		t.Errorf("the folder has %v", got)
	}
}

func TestExportGoesOnWithoutWhatCannotBe(t *testing.T) {
	f := newFake()
	long := strings.Repeat("x", 256)
	for _, name := range []string{"%2Fetc%2Fpasswd", "..", ".", "a%00b", "..%2Fup", long, "fine", "damaged", "short"} {
		f.file("/"+name, "bytes", 100)
	}
	f.file("/"+long+"y/in", "bytes", 100)
	f.file("/directory", "bytes", 100)
	f.file("/torn", strings.Repeat("x", 2*piece), 100)
	f.fails["READ /damaged 0"] = 500
	f.fails[fmt.Sprintf("READ /torn %d", piece)] = 500
	dir := tree(t, map[string]string{"directory/": "5"})
	progress, said, err := exportTree(f, dir, "/")
	noName := "no file can have its name"
	damaged := "the store cannot read or write it, it may be damaged (status 500)"
	want := map[string]string{
		"/%2Fetc%2Fpasswd": noName, "/..": noName, "/.": noName, "/a%00b": noName, "/..%2Fup": noName,
		"/" + long: "file name too long", "/" + long + "y": "file name too long",
		"/damaged": damaged, "/torn": damaged, "/directory": "is a directory",
	}
	for path, reason := range want {
		if !strings.Contains(said[path], reason) {
			t.Errorf("%.20s: it reports %q, want %q", path, said[path], reason)
		}
	}
	if err != nil || len(said) != len(want) || counts(progress) != [4]int64{2, 0, int64(len(want)), 0} {
		t.Errorf("%v, it reports %v, %v", err, said, counts(progress))
	}
	got := contentOf(t, dir)
	if wanted := map[string]string{"/": "1", "/fine": "100 bytes", "/short": "100 bytes", "/directory/": "5"}; !reflect.DeepEqual(got, wanted) {
		t.Errorf("the folder has %v", got)
	}
	if got := progress.Bytes.Load(); got != 10 {
		t.Errorf("%d bytes", got)
	}
}

func TestWhatEndsAnExport(t *testing.T) {
	f := newFake()
	f.file("/d/f", "x", 1)
	outside := t.TempDir()
	for what, test := range map[string]struct {
		options Options
		err     error
		says    string
	}{
		"no directory":   {options: Options{Path: "/none"}, says: "the store has no directory /none"},
		"a file":         {options: Options{Path: "/d/f"}, says: "/d/f is a file in the store"},
		"no parent":      {options: Options{Path: "/", Dir: outside + "/none/x"}, says: "no such file or directory"},
		"a file for DIR": {options: Options{Path: "/", Dir: "/dev/null"}, says: "not a directory"},
		"READ /d/f 0":    {options: Options{Path: "/"}, err: davd.ErrLost, says: davd.ErrLost.Error()},
		"PROPFIND /d":    {options: Options{Path: "/"}, err: davd.ErrDown, says: davd.ErrDown.Error()},
		"itself":         {options: Options{Path: "/", Dir: outside, Without: outside}, says: "is in the folder of the server"},
		"inside":         {options: Options{Path: "/", Dir: outside + "/x", Without: outside}, says: "is in the folder of the server"},
	} {
		f.errs = map[string]error{what: test.err}
		o := test.options
		if o.Store = f; o.Dir == "" {
			o.Dir = filepath.Join(t.TempDir(), "new")
		}
		if err := Export(context.Background(), o); err == nil || !strings.Contains(err.Error(), test.says) {
			t.Errorf("%s: %v, want %q", what, err, test.says)
		}
		if _, err := os.Stat(o.Dir); test.err == nil && strings.HasSuffix(o.Dir, "new") && err == nil {
			t.Errorf("%s: the folder was made", what)
		}
	}
	if got := contentOf(t, outside); len(got) != 1 {
		t.Errorf("the folder has %v", got)
	}
}

func TestAnInterruptedExportGoesOn(t *testing.T) {
	f := newFake()
	want := map[string]string{"/": "1"}
	for n := 0; n < 200; n++ {
		path := fmt.Sprintf("/d%d/f%d", n%7, n)
		f.file(path, fmt.Sprint(n), uint64(n))
		want[path] = fmt.Sprintf("%d %d", n, n)
		want[fmt.Sprintf("/d%d/", n%7)] = "500"
	}
	dir := t.TempDir()
	runs := 0
	for ; runs < 100; runs++ {
		ctx, cancel := f.cancelAt(60, "READ")
		err := Export(ctx, Options{Store: f, Dir: dir, Path: "/"})
		cancel()
		if err == nil {
			break
		}
		if !errors.Is(err, context.Canceled) {
			t.Fatal(err)
		}
	}
	if got := contentOf(t, dir); runs < 2 || !reflect.DeepEqual(got, want) {
		t.Errorf("after %d runs the folder has %v, want %v", runs, got, want)
	}
}

func TestParse(t *testing.T) {
	for path, want := range map[string]string{
		"/": "/", "/a": "/a", "/a/": "/a", "/a%20b/c d": "/a%20b/c%20d", "/é": "/%C3%A9", "/a%2Fb": "/a%2Fb",
		"": "", "a": "", "//": "", "/a//b": "", "/..": "", "/a/%2e%2e": "", "/%": "", "/%ff": "", "/./a": "",
	} {
		if got, err := Parse(path); got != want || (err == nil) != (want != "") {
			t.Errorf("%q is %q, %v, want %q", path, got, err, want)
		}
	}
}

func TestStoredTimesAreThoseOfHTTP(t *testing.T) {
	for seconds, want := range map[int64]uint64{-1: 0, 0: 0, 1: 1, lastTime: lastTime, lastTime + 1: lastTime, 1 << 60: lastTime} {
		if got := storedTime(time.Unix(seconds, 999)); got != want {
			t.Errorf("%d is stored as %d, want %d", seconds, got, want)
		}
	}
}

func TestMeasure(t *testing.T) {
	dir := tree(t, map[string]string{"a": "1 four", "d/b": "1 seven77", "e/": "1"})
	os.Symlink("/etc/passwd", filepath.Join(dir, "link"))
	if got := Measure(context.Background(), dir); got != 11 {
		t.Errorf("%d bytes, want 11", got)
	}
}
