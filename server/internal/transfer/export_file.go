package transfer

import (
	"errors"
	"fmt"
	"os"
	"time"

	"golang.org/x/sys/unix"

	"davserve/internal/frame"
)

// ofTarget returns an error of the file system that is written to as one of a single path, if others may be without it.
func ofTarget(err error) error {
	for _, full := range []error{unix.ENOSPC, unix.EDQUOT, unix.EROFS} {
		if errors.Is(err, full) {
			return err
		}
	}
	return onlyHere(err)
}

// file exports a file. It has another name until it is whole.
func (e *exporter) file(t *target, name string) (err error) {
	path := below(t.path, name)
	first, err := e.read(frame.Read{Path: path, Count: piece})
	if err != nil {
		return err
	}
	file, temporary, err := t.folder.create()
	if err != nil {
		return ofTarget(err)
	}
	written, err := e.write(file, path, first)
	if err == nil && syncsEach {
		if synced := file.Sync(); synced != nil {
			err = ofTarget(synced)
		}
	}
	if closed := file.Close(); err == nil && closed != nil {
		err = ofTarget(closed)
	}
	if err == nil {
		err = t.place(temporary, name, first.Modified)
	}
	if err != nil {
		t.folder.remove(temporary)
		e.Progress.Bytes.Add(-written)
		return err
	}
	e.Progress.Files.Add(1)
	return nil
}

// place gives a file that is whole its time and its name.
func (t *target) place(temporary, name string, modified *uint64) error {
	if modified != nil {
		if err := t.folder.setModified(temporary, time.Unix(int64(*modified), 0)); err != nil {
			return ofTarget(err)
		}
	}
	if err := t.folder.rename(temporary, name); err != nil {
		return ofTarget(err)
	}
	return nil
}

// read reads a part of a file.
func (e *exporter) read(part frame.Read) (frame.Part, error) {
	reply, err := e.Store.Do(e.ctx, part)
	if err != nil {
		return frame.Part{}, fromStore(err)
	}
	switch reply := reply.(type) {
	case frame.Part:
		return reply, nil
	case frame.Collection:
		return frame.Part{}, onlyHeref("it is a directory")
	}
	return frame.Part{}, fmt.Errorf("davd answered a read with a reply %T", reply)
}

// write writes what a file of the store contains, of which the first part was read. It returns how many bytes it wrote.
func (e *exporter) write(file *os.File, path string, part frame.Part) (written int64, err error) {
	length, tag := part.Length, part.ETag
	for {
		if _, err := file.Write(part.Bytes); err != nil {
			return written, ofTarget(err)
		}
		written += int64(len(part.Bytes))
		e.Progress.Bytes.Add(int64(len(part.Bytes)))
		if uint64(written) >= length {
			return written, nil
		}
		part, err = e.read(frame.Read{Path: path, Offset: uint64(written), Count: piece, ETag: tag})
		if err != nil {
			return written, err
		}
		if len(part.Bytes) == 0 || part.Length != length {
			return written, onlyHeref("it ends after %d of %d bytes", written, length)
		}
	}
}
