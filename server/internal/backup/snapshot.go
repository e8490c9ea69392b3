// Package backup copies the folder of a davd that goes on serving, as a tar archive, and makes a folder of the archive.
//
// davd keeps what files contain in data, and everything else in the SQLite database meta.db and its log meta.db-wal. The
// files last and last-wal have the number of the last batch. The archive has these files and no other. data is the last of
// them: davd refuses a folder whose data is too short, so that an archive that was cut is not taken for a backup.
package backup

import (
	"archive/tar"
	"errors"
	"fmt"
	"io"
	"io/fs"
	"os"
	"path/filepath"
	"time"

	"davserve/internal/disk"
)

// The files of a folder that a backup has.
const (
	databaseName = "meta.db"
	logName      = "meta.db-wal"
	lastName     = "last"
	otherName    = "last-wal"
	dataName     = "data"
)

// parts are the files in the order in which an archive has them.
var parts = []string{databaseName, logName, lastName, otherName, dataName}

// isOptional reports whether a folder need not have a file: a database may be whole without its log, and an older davd
// kept no number.
func isOptional(name string) bool {
	return name == logName || name == lastName || name == otherName
}

const (
	pieceSize = 256 << 10 // bytes that are read and written at once
	spareRoom = 64 << 20  // bytes that a copy leaves free on the disk of the folder
)

// A Snapshot is what a folder has at one time: copies of its database and of the log of that, and data with the length
// that it had.
type Snapshot struct {
	parts []part
	taken time.Time
}

// A part is a file of a snapshot.
type part struct {
	name   string
	file   *os.File
	length int64
}

// Take copies the database of a folder and opens data. Nobody may write to the folder meanwhile. Later data may become
// longer, but what it has may not change until the snapshot is written. The caller must close the snapshot.
//
// The copies are files without a name, on the disk of the folder or, if that has not enough room, in os.TempDir.
func Take(folder string) (*Snapshot, error) {
	s := &Snapshot{taken: time.Now()}
	for _, name := range parts {
		if err := s.add(folder, name); err != nil {
			s.Close()
			return nil, fmt.Errorf("a snapshot of the folder: %w", err)
		}
	}
	return s, nil
}

// add adds a file of the folder, if it has it or must have it.
func (s *Snapshot) add(folder, name string) error {
	file, err := os.Open(filepath.Join(folder, name))
	if isOptional(name) && errors.Is(err, fs.ErrNotExist) {
		return nil
	}
	if err != nil {
		return err
	}
	info, err := file.Stat()
	if err == nil && name != dataName {
		source := file
		defer source.Close()
		file, err = copyAside(source, info.Size(), folder)
	}
	if err != nil {
		return err
	}
	s.parts = append(s.parts, part{name: name, file: file, length: info.Size()})
	return nil
}

// copyAside copies a file to one without a name.
func copyAside(source *os.File, length int64, folder string) (*os.File, error) {
	aside, err := unnamed(roomFor(length, folder))
	if err != nil {
		return nil, err
	}
	if _, err = io.CopyN(aside, source, length); err == nil { // The system copies, without a buffer here.
		_, err = aside.Seek(0, io.SeekStart)
	}
	if err != nil {
		aside.Close()
		return nil, fmt.Errorf("a copy of %s: %w", source.Name(), err)
	}
	return aside, nil
}

// unnamed makes a file without a name, which no longer exists when it is closed or the program ends.
func unnamed(folder string) (*os.File, error) {
	file, err := os.CreateTemp(folder, "backup-*.tmp")
	if err != nil {
		return nil, err
	}
	if err := os.Remove(file.Name()); err != nil {
		file.Close()
		return nil, err
	}
	return file, nil
}

// roomFor returns the folder if its disk has room for so many bytes, and os.TempDir otherwise.
func roomFor(length int64, folder string) string {
	if free, err := disk.Free(folder); err == nil && free < length+spareRoom {
		return os.TempDir()
	}
	return folder
}

// Write writes the files to an archive, which it does not close. It calls check before each piece, and fails with its
// error.
func (s *Snapshot) Write(archive *tar.Writer, check func() error) error {
	buffer := make([]byte, pieceSize)
	for _, p := range s.parts {
		header := tar.Header{Typeflag: tar.TypeReg, Name: p.name, Size: p.length, Mode: 0o600, ModTime: s.taken}
		if err := archive.WriteHeader(&header); err != nil {
			return err
		}
		source := &checked{source: io.LimitReader(p.file, p.length), check: check}
		n, err := io.CopyBuffer(archive, source, buffer)
		if err == nil && n < p.length {
			err = io.ErrUnexpectedEOF
		}
		if err != nil {
			return fmt.Errorf("%s, %d of %d bytes: %w", p.name, n, p.length, err)
		}
	}
	return nil
}

// Close closes the files, and so the copies no longer exist.
func (s *Snapshot) Close() {
	for _, p := range s.parts {
		p.file.Close()
	}
}

// A checked reader calls a function before each read.
type checked struct {
	source io.Reader
	check  func() error
}

// Read implements io.Reader.
func (c *checked) Read(p []byte) (int, error) {
	if err := c.check(); err != nil {
		return 0, err
	}
	return c.source.Read(p)
}
