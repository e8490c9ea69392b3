package backup

import (
	"archive/tar"
	"errors"
	"fmt"
	"io"
	"io/fs"
	"os"
	"path/filepath"
)

// partialName is the directory in which files are until all of them are there.
const partialName = "partial"

// A Target is a folder that a backup is unpacked into. It has no meta.db until it is whole, and davd finds nothing in a
// folder without one.
type Target struct {
	folder string
	isNew  bool     // the folder was made
	placed []string // the files that have their names in the folder
	isDone bool
}

// Sizes are how many bytes the files of a backup have.
type Sizes struct {
	Database int64 // with its log
	Data     int64
}

// Make makes the folder of a backup. It may exist if it is empty. The caller must call Discard.
func Make(folder string) (*Target, error) {
	t := &Target{folder: filepath.Clean(folder)}
	switch err := os.Mkdir(t.folder, 0o700); {
	case err == nil:
		t.isNew = true
	case !errors.Is(err, fs.ErrExist):
		return nil, err
	default:
		if err := checkEmpty(t.folder); err != nil {
			return nil, err
		}
	}
	if err := os.Mkdir(t.partial(""), 0o700); err != nil {
		if t.isNew {
			os.Remove(t.folder)
		}
		return nil, err
	}
	return t, nil
}

// checkEmpty returns an error unless there is an empty directory.
func checkEmpty(folder string) error {
	directory, err := os.Open(folder)
	if err != nil {
		return err
	}
	defer directory.Close()
	switch names, err := directory.Readdirnames(1); {
	case len(names) > 0:
		return fmt.Errorf("%s is not empty", folder)
	case err == io.EOF:
		return nil
	default:
		return err
	}
}

// partial returns the path of a file that has not its name yet.
func (t *Target) partial(name string) string {
	return filepath.Join(t.folder, partialName, name)
}

// Unpack makes the files of an archive, and reads its source to the end. When it returns nil, the backup is on the disk.
// Otherwise there is none, and the caller must discard the folder.
func (t *Target) Unpack(source io.Reader) (Sizes, error) {
	lengths, err := t.unpackAll(source)
	if err != nil {
		return Sizes{}, err
	}
	// The database is the last, so that a folder with one is whole.
	for i := len(parts) - 1; i >= 0; i-- {
		if _, ok := lengths[parts[i]]; ok {
			if err := t.place(parts[i]); err != nil {
				return Sizes{}, err
			}
		}
	}
	if err := os.Remove(t.partial("")); err != nil {
		return Sizes{}, err
	}
	if err := t.sync(); err != nil {
		return Sizes{}, err
	}
	t.isDone = true
	return Sizes{Database: lengths[databaseName] + lengths[logName], Data: lengths[dataName]}, nil
}

// unpackAll makes the files of an archive, under their partial names. It returns how long they are.
func (t *Target) unpackAll(source io.Reader) (map[string]int64, error) {
	lengths := map[string]int64{}
	archive := tar.NewReader(source)
	for {
		header, err := archive.Next()
		if err == io.EOF {
			break
		}
		if err != nil {
			return nil, err
		}
		if header.Typeflag != tar.TypeReg || !isPart(header.Name) {
			return nil, fmt.Errorf("the archive has a file %q, which is none of a backup", header.Name)
		}
		if err := t.unpackOne(header.Name, archive); err != nil {
			return nil, err
		}
		lengths[header.Name] = header.Size
	}
	for _, name := range []string{databaseName, dataName} {
		if _, ok := lengths[name]; !ok {
			return nil, fmt.Errorf("the archive has no file %s", name)
		}
	}
	_, err := io.Copy(io.Discard, source) // An archive without an end may seem whole.
	return lengths, err
}

func isPart(name string) bool {
	for _, part := range parts {
		if name == part {
			return true
		}
	}
	return false
}

// unpackOne makes a file with this content, on the disk.
func (t *Target) unpackOne(name string, content io.Reader) error {
	file, err := os.OpenFile(t.partial(name), os.O_WRONLY|os.O_CREATE|os.O_EXCL, 0o600)
	if err != nil {
		return err
	}
	_, err = io.CopyBuffer(file, content, make([]byte, pieceSize))
	if err == nil {
		err = file.Sync()
	}
	if closed := file.Close(); err == nil {
		err = closed
	}
	return err
}

// place gives a file its name. Those before it have theirs on the disk.
func (t *Target) place(name string) error {
	if err := syncDirectory(t.folder); err != nil {
		return err
	}
	if err := os.Rename(t.partial(name), filepath.Join(t.folder, name)); err != nil {
		return err
	}
	t.placed = append(t.placed, name)
	return nil
}

// sync has the names of the files and, if it is new, that of the folder on the disk.
func (t *Target) sync() error {
	if err := syncDirectory(t.folder); err != nil || !t.isNew {
		return err
	}
	return syncDirectory(filepath.Dir(t.folder))
}

func syncDirectory(name string) error {
	directory, err := os.Open(name)
	if err != nil {
		return err
	}
	err = directory.Sync()
	if closed := directory.Close(); err == nil {
		err = closed
	}
	return err
}

// Discard removes what was made of a backup that did not become whole. After Unpack has returned nil it does nothing.
func (t *Target) Discard() {
	if t.isDone {
		return
	}
	for i := len(t.placed) - 1; i >= 0; i-- { // the database first
		os.Remove(filepath.Join(t.folder, t.placed[i]))
	}
	os.RemoveAll(t.partial(""))
	if t.isNew {
		os.Remove(t.folder)
	}
}
