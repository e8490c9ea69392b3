package transfer

import (
	"errors"
	"io"
	"io/fs"
	"os"
	"strconv"

	"davserve/internal/frame"
)

// unnamed returns an error of a file as one of a single path. The report names the path, so that the error does not.
func unnamed(err error) error {
	var named *fs.PathError
	if errors.As(err, &named) {
		err = named.Err
	}
	return onlyHere(err)
}

// errChanged says that a file was changed while it was read.
var errChanged = onlyHeref("it changes while it is read")

// file imports a file. If it changes meanwhile, it is imported once more.
func (i *importer) file(s *source, name string, buffer []byte) error {
	err := i.tryFile(s, name, buffer)
	if errors.Is(err, errChanged) {
		err = i.tryFile(s, name, buffer)
	}
	return err
}

// tryFile imports a file as it was at one time, unless it changes meanwhile.
func (i *importer) tryFile(s *source, name string, buffer []byte) (err error) {
	file, before, err := s.folder.read(name)
	if err != nil {
		return unnamed(err)
	}
	defer file.Close()
	body, err := i.Store.StartBody(i.ctx)
	if err != nil {
		return fromStore(err)
	}
	defer body.Drop()
	length, err := i.send(body, file, before.length, buffer)
	defer func() {
		if err != nil {
			i.Progress.Bytes.Add(-length)
		}
	}()
	if err != nil {
		return err
	}
	after, err := state(file)
	if err != nil {
		return unnamed(err)
	}
	if length != before.length || after != before {
		return errChanged
	}
	return i.put(s, below(s.path, name), body, before)
}

// send adds to a body what is in a file, up to a length. It returns how many bytes that were.
func (i *importer) send(body Body, file *os.File, length int64, buffer []byte) (sent int64, err error) {
	source := io.LimitReader(file, length)
	for {
		n, err := io.ReadFull(source, buffer)
		if n > 0 {
			if err := body.Add(i.ctx, buffer[:n]); err != nil {
				return sent, fromStore(err)
			}
			sent += int64(n)
			i.Progress.Bytes.Add(int64(n))
		}
		switch err {
		case nil:
		case io.EOF, io.ErrUnexpectedEOF:
			return sent, nil
		default:
			return sent, unnamed(err)
		}
	}
}

// put stores a body as a file with the time of another one.
func (i *importer) put(s *source, path string, body Body, found entry) error {
	s.changed.Store(true)
	request := &frame.Request{
		Method: "PUT", Path: path, Token: noToken,
		Fields: []frame.Field{{Name: "content-length", Value: strconv.FormatInt(found.length, 10)}},
	}
	if _, err := i.response(body.Do(i.ctx, nil, request)); err != nil {
		return err
	}
	if err := i.setModified(path, storedTime(found.modified)); err != nil {
		return err
	}
	i.Progress.Files.Add(1)
	return nil
}
