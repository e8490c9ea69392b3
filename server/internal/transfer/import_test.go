package transfer

import (
	"context"
	"errors"
	"fmt"
	"os"
	"path/filepath"
	"reflect"
	"strings"
	"syscall"
	"testing"
	"time"

	"davserve/internal/davd"
)

// tree makes files and directories, with their times. A directory ends with a slash, and is made before what is in it.
func tree(t *testing.T, files map[string]string) string {
	t.Helper()
	top := t.TempDir()
	var directories []string
	for name, content := range files {
		path := filepath.Join(top, name)
		modified, text, _ := strings.Cut(content, " ")
		if err := os.MkdirAll(filepath.Dir(path), 0o777); err != nil {
			t.Fatal(err)
		}
		if strings.HasSuffix(name, "/") {
			os.MkdirAll(path, 0o777)
			directories = append(directories, name)
			continue
		}
		if err := os.WriteFile(path, []byte(text), 0o666); err != nil {
			t.Fatal(err)
		}
		setTime(t, path, modified)
	}
	for _, name := range directories {
		setTime(t, filepath.Join(top, name), files[name])
	}
	return top
}

func setTime(t *testing.T, path, seconds string) {
	t.Helper()
	var n int64
	fmt.Sscan(seconds, &n)
	if err := os.Chtimes(path, time.Unix(n, 500), time.Unix(n, 500)); err != nil {
		t.Fatal(err)
	}
}

// reports collects what was reported.
type reports map[string]string

func (r reports) add(path string, reason error) { r[path] = reason.Error() }

// importTree imports into a store, and returns what was counted and reported, by the names in the tree.
func importTree(t *testing.T, f *fake, dir, path string) (*Progress, reports, error) {
	t.Helper()
	progress, said := new(Progress), reports{}
	err := Import(context.Background(), Options{
		Store: f, Dir: dir, Path: path, Progress: progress,
		Report: func(path string, reason error) {
			name, err := filepath.Rel(dir, path)
			if err != nil {
				t.Error(err)
			}
			said.add(name, reason)
		},
	})
	if f.bodies != 0 {
		t.Errorf("%d bodies are not dropped", f.bodies)
	}
	return progress, said, err
}

// counts returns how many files were copied, were there and failed, and how many directories were made.
func counts(p *Progress) [4]int64 {
	return [4]int64{p.Files.Load(), p.Skipped.Load(), p.Failed.Load(), p.Directories.Load()}
}

var sample = map[string]string{
	"a b%20c":          "100 first",
	"empty":            "1700000000 ",
	"d/":               "200",
	"d/é":              "300 accent",
	"d/你好/":            "400",
	"d/你好/שלום":        "500 hebrew",
	"d/?#&;":           "600 signs",
	"old":              "-5 before",
	"void/":            "700",
	"./":               "800",
	"long":             "900 " + strings.Repeat("0123456789abcdef", piece/8),
	"d/.hidden/":       "1000",
	"d/.hidden/.thing": "1100 hidden",
}

// stored is what a store has of the sample.
func stored() map[string]string {
	want := map[string]string{}
	for name, content := range sample {
		want["/"+name] = content
	}
	delete(want, "/./")
	want["/"], want["/old"] = "800", "0 before"
	return want
}

func TestImport(t *testing.T) {
	f, dir := newFake(), tree(t, sample)
	progress, said, err := importTree(t, f, dir, "/")
	if err != nil || len(said) != 0 {
		t.Fatalf("%v, %v", err, said)
	}
	if got := f.content(t); !reflect.DeepEqual(got, stored()) {
		t.Errorf("the store has %.400v, want %.400v", got, stored())
	}
	if got, want := counts(progress), [4]int64{8, 0, 0, 4}; got != want {
		t.Errorf("counts %v, want %v", got, want)
	}
	if got, want := progress.Bytes.Load(), int64(2*piece+5+6+6+5+6+6); got != want {
		t.Errorf("%d bytes, want %d", got, want)
	}
}

func TestASecondImportChangesNothing(t *testing.T) {
	f, dir := newFake(), tree(t, sample)
	importTree(t, f, dir, "/")
	f.requests = nil
	progress, said, err := importTree(t, f, dir, "/")
	if err != nil || len(said) != 0 || counts(progress) != [4]int64{0, 8, 0, 0} {
		t.Errorf("%v, %v, %v", err, said, counts(progress))
	}
	if got := f.count("PROPFIND"); got != 5 || len(f.requests) != 5 {
		t.Errorf("the requests are %v", f.requests)
	}
}

func TestImportReplacesWhatChanged(t *testing.T) {
	for name, change := range map[string]string{"another time": "101 first", "another length": "100 longer"} {
		f, dir := newFake(), tree(t, map[string]string{"a": "100 first", "d/b": "200 second", "./": "50", "d/": "60"})
		importTree(t, f, dir, "/")
		at, text, _ := strings.Cut(change, " ")
		os.WriteFile(filepath.Join(dir, "a"), []byte(text), 0o666)
		setTime(t, filepath.Join(dir, "a"), at)
		progress, _, err := importTree(t, f, dir, "/")
		want := map[string]string{"/": "50", "/a": change, "/d/": "60", "/d/b": "200 second"}
		if got := f.content(t); err != nil || !reflect.DeepEqual(got, want) || counts(progress) != [4]int64{1, 1, 0, 0} {
			t.Errorf("%s: %v, %v, %v", name, got, counts(progress), err)
		}
	}
}

func TestImportRemovesNothing(t *testing.T) {
	f, dir := newFake(), tree(t, map[string]string{"a": "100 a"})
	f.file("/other", "x", 1)
	f.file("/d/more", "y", 2)
	importTree(t, f, dir, "/d")
	for path, want := range map[string]string{"/other": "1 x", "/d/more": "2 y", "/d/a": "100 a"} {
		if got := f.content(t)[path]; got != want {
			t.Errorf("%s is %q, want %q", path, got, want)
		}
	}
}

func TestImportMakesItsPath(t *testing.T) {
	f, dir := newFake(), tree(t, map[string]string{"x": "100 x", "./": "50"})
	progress, _, err := importTree(t, f, dir, "/a%20b/c/d")
	if got := f.content(t); err != nil || got["/a b/c/d/x"] != "100 x" || got["/a b/c/d/"] != "50" {
		t.Errorf("%v, %v", got, err)
	}
	if counts(progress) != [4]int64{1, 0, 0, 3} {
		t.Errorf("counts %v", counts(progress))
	}
}

func TestImportHasNoPlace(t *testing.T) {
	for name, test := range map[string]struct {
		path, says string
		status     int
	}{
		"a file":           {"/f", "/f is a file in the store", 0},
		"below a file":     {"/f/a/b", "/f is a file in the store", 0},
		"locked":           {"/new", "/new cannot be made in the store: it is locked", 423},
		"the disk is full": {"/new", "/new cannot be made in the store: " + errFull.Error(), 507},
	} {
		f, dir := newFake(), tree(t, map[string]string{"a": "100 a"})
		f.file("/f", "x", 1)
		f.fails["MKCOL /new"] = test.status
		if _, _, err := importTree(t, f, dir, test.path); err == nil || err.Error() != test.says {
			t.Errorf("%s: %v, want %q", name, err, test.says)
		}
	}
	if err := Import(context.Background(), Options{Store: newFake(), Dir: "/dev/null", Path: "/"}); !errors.Is(err, syscall.ENOTDIR) {
		t.Errorf("a device: %v", err)
	}
}

func TestImportGoesOnWithoutWhatCannotBe(t *testing.T) {
	f, dir := newFake(), tree(t, map[string]string{
		"a": "100 a", "is-file": "100 x", "is-directory/b": "100 b", "locked": "100 x", "damaged": "100 x", "bad/c": "100 c",
		"d/z": "100 z",
	})
	os.Symlink("/etc/passwd", filepath.Join(dir, "link"))
	os.Symlink("d", filepath.Join(dir, "link-to-d"))
	syscall.Mkfifo(filepath.Join(dir, "pipe"), 0o666)
	os.WriteFile(filepath.Join(dir, "latin-\xe9"), nil, 0o666)
	f.collection("/is-file", 1)
	f.file("/is-directory", "x", 1)
	f.fails = map[string]int{"PUT /locked": 423, "PUT /damaged": 500, "MKCOL /bad": 403}
	progress, said, err := importTree(t, f, dir, "/")
	want := reports{
		"is-file": "it is a file, and the store has another there", "is-directory": "it is a directory, and the store has another there",
		"locked": "it is locked", "damaged": "the store cannot read or write it, it may be damaged (status 500)",
		"bad": "the store refuses it (status 403)", "link": "it is a symbolic link", "link-to-d": "it is a symbolic link",
		"pipe": "it is a named pipe", "latin-\xe9": "its name is not UTF-8",
	}
	if err != nil || !reflect.DeepEqual(said, want) {
		t.Errorf("%v, it reports %v, want %v", err, said, want)
	}
	if got := f.content(t); got["/a"] != "100 a" || got["/d/z"] != "100 z" || counts(progress) != [4]int64{2, 0, 9, 1} {
		t.Errorf("%v, %v", got, counts(progress))
	}
	if seen := progress.Seen.Load(); seen != 13 {
		t.Errorf("%d seen", seen)
	}
}

func TestWhatEndsAnImport(t *testing.T) {
	for what, test := range map[string]struct {
		err  error
		says string
	}{
		"PUT /f07": {&davd.StatusError{Status: 507}, errFull.Error()},
		"BODY":     {&davd.StatusError{Status: 507}, errFull.Error()},
		"ADD":      {davd.ErrFull, errFull.Error()},
		"TIME /f1": {davd.ErrLost, davd.ErrLost.Error()},
		"MKCOL /d": {davd.ErrDown, davd.ErrDown.Error()},
		"TIME /d":  {davd.ErrUnknown, davd.ErrUnknown.Error()},
		"TIME /":   {&davd.StatusError{Status: 400}, errOld.Error()},
	} {
		files := map[string]string{"d/x": "1 x"}
		for n := 0; n < 100; n++ {
			files[fmt.Sprintf("f%02d", n)] = "100 x"
		}
		f, dir := newFake(), tree(t, files)
		for n := 0; n < 10; n++ {
			f.errs[strings.Replace(what, "TIME /f1", fmt.Sprintf("TIME /f1%d", n), 1)] = test.err
		}
		_, said, err := importTree(t, f, dir, "/")
		if err == nil || err.Error() != test.says || len(said) != 0 {
			t.Errorf("%s: %v, %v", what, err, said)
		}
	}
}

func TestAnInterruptedImportGoesOn(t *testing.T) {
	files := map[string]string{"./": "50"}
	for n := 0; n < 200; n++ {
		files[fmt.Sprintf("d%d/", n%7)] = "60"
		files[fmt.Sprintf("d%d/f%d", n%7, n)] = fmt.Sprintf("%d x%d", 100+n, n)
	}
	f, dir := newFake(), tree(t, files)
	want := map[string]string{}
	for name, content := range files {
		want["/"+strings.TrimPrefix(name, "./")] = content
	}
	runs := 0
	for ; runs < 100; runs++ {
		ctx, cancel := f.cancelAt(300, "")
		err := Import(ctx, Options{Store: f, Dir: dir, Path: "/"})
		cancel()
		if err == nil {
			break
		}
		if !errors.Is(err, context.Canceled) {
			t.Fatal(err)
		}
	}
	if got := f.content(t); !reflect.DeepEqual(got, want) {
		t.Errorf("the store has %v, want %v", got, want)
	}
	if puts := f.count("PUT"); runs < 2 || puts > 200+runs*inFlight {
		t.Errorf("%d runs and %d PUTs", runs, puts)
	}
}

func TestAFileThatChangesIsImportedOnceMore(t *testing.T) {
	for changes, want := range map[int]string{1: "", 2: "it changes while it is read"} {
		f, dir := newFake(), tree(t, map[string]string{"a": "100 first"})
		f.before = func(what string) {
			if what == "BODY" && f.count("BODY") < changes {
				os.WriteFile(filepath.Join(dir, "a"), []byte(fmt.Sprintf("%d more", f.count("BODY"))), 0o666)
			}
		}
		_, said, err := importTree(t, f, dir, "/")
		if err != nil || said["a"] != want {
			t.Errorf("%d changes: %v, %v", changes, said, err)
		}
		if got := f.content(t)["/a"]; changes == 1 && !strings.HasSuffix(got, " 0 more") || changes == 2 && got != "" {
			t.Errorf("%d changes: it is %q", changes, got)
		}
	}
}

func TestWhatCannotBeReadIsReportedWithoutItsPath(t *testing.T) {
	err := unnamed(&os.PathError{Op: "open", Path: "/a", Err: syscall.EACCES})
	if err.Error() != "permission denied" || !errors.Is(err, syscall.EACCES) {
		t.Errorf("%v", err)
	}
}

func TestTheFolderOfTheServerIsNotImported(t *testing.T) {
	f, dir := newFake(), tree(t, map[string]string{"a": "100 a", "dav/meta.db": "100 m"})
	said := reports{}
	err := Import(context.Background(), Options{Store: f, Dir: dir, Path: "/", Without: filepath.Join(dir, "dav"), Report: said.add})
	if err != nil || said[filepath.Join(dir, "dav")] != "it is the folder of the server" {
		t.Errorf("%v, %v", err, said)
	}
	err = Import(context.Background(), Options{Store: f, Dir: dir + "/dav", Path: "/new", Without: filepath.Join(dir, "dav")})
	if err == nil || err.Error() != dir+"/dav is the folder of the server" {
		t.Errorf("itself: %v", err)
	}
	if got := f.content(t); got["/a"] != "100 a" || len(got) != 2 {
		t.Errorf("the store has %v", got)
	}
}
