package backup

import (
	"archive/tar"
	"bytes"
	"errors"
	"io"
	"math/rand"
	"os"
	"path/filepath"
	"strings"
	"testing"
	"testing/iotest"
)

func fine() error { return nil }

// contents are files by their names.
type contents map[string][]byte

// write makes the files in a folder.
func (c contents) write(t *testing.T, folder string) {
	t.Helper()
	for name, content := range c {
		if err := os.WriteFile(filepath.Join(folder, name), content, 0o600); err != nil {
			t.Fatal(err)
		}
	}
}

// check checks that a folder has these files and no other.
func (c contents) check(t *testing.T, folder string) {
	t.Helper()
	entries, err := os.ReadDir(folder)
	if err != nil {
		t.Fatal(err)
	}
	for _, entry := range entries {
		if _, ok := c[entry.Name()]; !ok {
			t.Errorf("there is a file %s", entry.Name())
		}
	}
	for name, content := range c {
		if got, err := os.ReadFile(filepath.Join(folder, name)); err != nil || !bytes.Equal(got, content) {
			t.Errorf("%s has %d bytes (%v), expected %d", name, len(got), err, len(content))
		}
	}
}

// random returns some bytes, the same for the same length.
func random(length int) []byte {
	b := make([]byte, length)
	rand.New(rand.NewSource(int64(length))).Read(b)
	return b
}

// archiveOf returns an archive of files in this order.
func archiveOf(t *testing.T, files contents, names ...string) []byte {
	t.Helper()
	var b bytes.Buffer
	w := tar.NewWriter(&b)
	for _, name := range names {
		header := tar.Header{Typeflag: tar.TypeReg, Name: name, Size: int64(len(files[name])), Mode: 0o600}
		if err := w.WriteHeader(&header); err != nil {
			t.Fatal(err)
		}
		w.Write(files[name])
	}
	if err := w.Close(); err != nil {
		t.Fatal(err)
	}
	return b.Bytes()
}

// unpack unpacks an archive, and discards what is not whole.
func unpack(t *testing.T, source io.Reader, folder string) (Sizes, error) {
	t.Helper()
	target, err := Make(folder)
	if err != nil {
		t.Fatal(err)
	}
	defer target.Discard()
	return target.Unpack(source)
}

// write returns the archive of a snapshot.
func write(t *testing.T, snapshot *Snapshot) io.Reader {
	t.Helper()
	var b bytes.Buffer
	archive := tar.NewWriter(&b)
	if err := snapshot.Write(archive, fine); err != nil {
		t.Fatal(err)
	}
	if err := archive.Close(); err != nil {
		t.Fatal(err)
	}
	return &b
}

func TestABackupHasTheFilesOfTheFolder(t *testing.T) {
	tests := map[string]contents{
		"with a log":    {"meta.db": random(40960), "meta.db-wal": random(3000), "data": random(3 << 20)},
		"with a number": {"meta.db": random(40960), "last": random(16), "last-wal": random(17), "data": random(3000)},
		"without a log": {"meta.db": random(40960), "data": random(pieceSize)},
		"without files": {"meta.db": random(4096), "meta.db-wal": {}, "data": {}},
	}
	for name, files := range tests {
		t.Run(name, func(t *testing.T) {
			folder := t.TempDir()
			files.write(t, folder)
			contents{"data-wal": random(100), "control": nil}.write(t, folder)
			snapshot, err := Take(folder)
			if err != nil {
				t.Fatal(err)
			}
			defer snapshot.Close()
			changed := contents{
				"meta.db": random(50000), "meta.db-wal": random(10), "data": append(files["data"][:], random(5000)...),
				"data-wal": nil, "control": nil,
			}
			for _, name := range []string{"last", "last-wal"} {
				if _, ok := files[name]; ok {
					changed[name] = random(5)
				}
			}
			changed.write(t, folder)
			changed.check(t, folder) // The copies have no names there.
			target := filepath.Join(t.TempDir(), "target")
			sizes, err := unpack(t, write(t, snapshot), target)
			if err != nil {
				t.Fatal(err)
			}
			files.check(t, target)
			want := Sizes{Database: int64(len(files["meta.db"]) + len(files["meta.db-wal"])), Data: int64(len(files["data"]))}
			if sizes != want {
				t.Errorf("sizes %+v, want %+v", sizes, want)
			}
		})
	}
}

func TestTakeNamesWhatIsMissing(t *testing.T) {
	for _, name := range []string{"meta.db", "data"} {
		folder := t.TempDir()
		files := contents{"meta.db": random(10), "meta.db-wal": random(10), "data": random(10)}
		delete(files, name)
		files.write(t, folder)
		if _, err := Take(folder); !errors.Is(err, os.ErrNotExist) || !strings.Contains(err.Error(), name) {
			t.Errorf("without %s: %v", name, err)
		}
		files.check(t, folder)
	}
}

func TestACopyGoesWhereThereIsRoom(t *testing.T) {
	folder := t.TempDir()
	if got := roomFor(1000, folder); got != folder {
		t.Errorf("a small copy: %s", got)
	}
	if got := roomFor(1<<60, folder); got != os.TempDir() {
		t.Errorf("a copy larger than the disk: %s", got)
	}
}

func TestWriteFailsWithTheCheck(t *testing.T) {
	folder := t.TempDir()
	contents{"meta.db": random(10), "data": random(4 * pieceSize)}.write(t, folder)
	snapshot, err := Take(folder)
	if err != nil {
		t.Fatal(err)
	}
	defer snapshot.Close()
	failure, checks := errors.New("davd has ended"), 0
	err = snapshot.Write(tar.NewWriter(io.Discard), func() error {
		if checks++; checks == 5 {
			return failure
		}
		return nil
	})
	if !errors.Is(err, failure) || !strings.Contains(err.Error(), "data, 524288 of 1048576 bytes") {
		t.Errorf("Write: %v", err)
	}
}

func TestAShorterFileIsAnError(t *testing.T) {
	folder := t.TempDir()
	contents{"meta.db": random(10), "data": random(1000)}.write(t, folder)
	snapshot, err := Take(folder)
	if err != nil {
		t.Fatal(err)
	}
	defer snapshot.Close()
	os.Truncate(filepath.Join(folder, "data"), 999)
	if err := snapshot.Write(tar.NewWriter(io.Discard), fine); !errors.Is(err, io.ErrUnexpectedEOF) {
		t.Errorf("Write: %v", err)
	}
}

var errBroken = errors.New("the connection is broken")

// reader returns a function that returns a new reader of some bytes.
func reader(b []byte) func() io.Reader {
	return func() io.Reader { return bytes.NewReader(b) }
}

// linkArchive returns an archive with a link in the place of a file.
func linkArchive() []byte {
	var b bytes.Buffer
	w := tar.NewWriter(&b)
	w.WriteHeader(&tar.Header{Typeflag: tar.TypeSymlink, Name: "data", Linkname: "/etc/passwd"})
	w.Close()
	return b.Bytes()
}

func TestWhatIsNotWholeLeavesNothing(t *testing.T) {
	files := contents{"meta.db": random(4096), "meta.db-wal": random(700), "data": random(9000), "../data": random(5)}
	whole := archiveOf(t, files, "meta.db", "meta.db-wal", "data")
	broken := func(b []byte) io.Reader { return io.MultiReader(bytes.NewReader(b), iotest.ErrReader(errBroken)) }
	tests := []struct {
		name   string
		source func() io.Reader
		says   string
	}{
		{"nothing", reader(nil), "has no file meta.db"},
		{"no archive", reader(random(2000)), "invalid tar header"},
		{"cut in data", reader(whole[:8000]), "unexpected EOF"},
		{"cut before data", reader(whole[:512+4096+512+1024]), "has no file data"},
		{"broken in data", func() io.Reader { return broken(whole[:8000]) }, errBroken.Error()},
		{"broken behind the archive", func() io.Reader { return broken(whole) }, errBroken.Error()},
		{"no database", reader(archiveOf(t, files, "data")), "has no file meta.db"},
		{"another file", reader(archiveOf(t, files, "meta.db", "../data")), `a file "../data"`},
		{"a file twice", reader(archiveOf(t, files, "meta.db", "data", "data")), "file exists"},
		{"a link", reader(linkArchive()), `a file "data"`},
	}
	for _, test := range tests {
		there, missing := t.TempDir(), filepath.Join(t.TempDir(), "target")
		for _, folder := range []string{there, missing} {
			if _, err := unpack(t, test.source(), folder); err == nil || !strings.Contains(err.Error(), test.says) {
				t.Errorf("%s: %v, without %q", test.name, err, test.says)
			}
		}
		contents{}.check(t, there)
		if _, err := os.Stat(missing); !errors.Is(err, os.ErrNotExist) {
			t.Errorf("%s: the folder is there: %v", test.name, err)
		}
	}
}

func TestABackupGoesIntoAnEmptyFolder(t *testing.T) {
	files := contents{"meta.db": random(4096), "meta.db-wal": random(700), "data": random(9000)}
	whole := archiveOf(t, files, "meta.db", "meta.db-wal", "data")
	folder := t.TempDir()
	if _, err := unpack(t, bytes.NewReader(whole), folder); err != nil {
		t.Fatal(err)
	}
	files.check(t, folder)
}

func TestMakeRefuses(t *testing.T) {
	folder := t.TempDir()
	contents{"full": {}}.write(t, folder)
	busy := filepath.Join(folder, "busy")
	target, err := Make(busy)
	if err != nil {
		t.Fatal(err)
	}
	defer target.Discard()
	tests := map[string]string{
		folder:                               "is not empty",
		busy:                                 "is not empty", // Another backup is under way into it.
		filepath.Join(folder, "full"):        "not a directory",
		filepath.Join(folder, "none/target"): "no such file or directory",
	}
	for folder, says := range tests {
		if _, err := Make(folder); err == nil || !strings.Contains(err.Error(), says) {
			t.Errorf("%s: %v, without %q", folder, err, says)
		}
	}
}
