package transfer

import (
	"context"
	"errors"
	"fmt"
	"os"
	"strings"
	"sync/atomic"
	"unicode/utf8"

	"davserve/internal/members"
)

// Import copies what is in a folder into a directory of the store, which is made if it is not there. When it returns nil,
// each path was copied, was there already or was reported. Otherwise the error says why it ended early.
func Import(ctx context.Context, o Options) error {
	folder, err := openFolder(o.Dir)
	if err != nil {
		return err
	}
	i := importer{start(ctx, o)}
	top := &source{name: o.Dir, path: o.Path, folder: folder}
	top.finish = func() { i.finish(top) }
	top.within(nil)
	if err = i.checkPlace(folder); err == nil {
		top.self, top.members, err = i.target(o.Path)
	}
	if err != nil {
		i.settle(o.Path, always(err))
		top.release()
	} else {
		i.Progress.Seen.Add(1)
		i.walk(top)
	}
	return i.end()
}

// checkPlace refuses to import the folder of the store.
func (i *importer) checkPlace(folder *folder) error {
	found, err := state(folder.file)
	if err == nil && i.isWithout(found) {
		err = fmt.Errorf("%s is the folder of the server", i.Dir)
	}
	return err
}

// always returns an error as one that ends the run.
func always(err error) error {
	return errors.New(err.Error())
}

// An importer imports one tree.
type importer struct{ *run }

// A source is a directory that is imported.
type source struct {
	branch
	name    string           // for messages
	path    string           // in the store
	self    members.Member   // what the store had before
	members []members.Member // what the store had in it before; if it is still to be listed, nil
	made    chan struct{}    // closed when the store has it, or cannot have it
	isNew   bool             // the store had none
	isBad   bool             // the store cannot have it, or does not list it
	changed atomic.Bool      // something in it was changed, so that its time may be another now
	folder  *folder          // nil: it is not open yet
}

// target returns the directory of the store that is imported into, and its members. It makes it, and those above it.
func (i *importer) target(path string) (self members.Member, found []members.Member, err error) {
	self, found, err = i.list(path)
	if errors.Is(err, errAbsent) {
		for at := range path {
			if at > 0 && path[at] == '/' {
				if err := i.makeAbove(path[:at]); err != nil {
					return self, nil, err
				}
			}
		}
		if err := i.makeAbove(path); err != nil {
			return self, nil, err
		}
		self, found, err = i.list(path)
	}
	switch {
	case err != nil:
		err = fmt.Errorf("%s in the store: %w", path, err)
	case !self.IsCollection:
		err = fmt.Errorf("%s is a file in the store", path)
	}
	return self, found, err
}

// makeAbove makes a directory of the store if it is not there.
func (i *importer) makeAbove(path string) error {
	switch self, _, err := i.list(path); {
	case err == nil && !self.IsCollection:
		return fmt.Errorf("%s is a file in the store", path)
	case !errors.Is(err, errAbsent):
		return err
	}
	if err := i.makeCollection(path); err != nil {
		return fmt.Errorf("%s cannot be made in the store: %w", path, err)
	}
	i.Progress.Directories.Add(1)
	return nil
}

// walk imports what is in an open directory: first its files, then its directories, each in the order of the names. It
// makes the directories of the store ahead, so that many share a commit.
func (i *importer) walk(s *source) {
	defer func() { i.jobs <- func([]byte) { s.release() } }()
	names, err := s.folder.names()
	if err != nil {
		i.settle(s.name, unnamed(err))
		return
	}
	there := make(map[string]members.Member, len(s.members))
	for _, m := range s.members {
		there[m.Name()] = m
	}
	s.members = nil
	var directories []*source
	for _, name := range names {
		if i.ctx.Err() != nil {
			break
		}
		i.Progress.Seen.Add(1)
		directory, err := i.member(s, name, there)
		i.settle(s.folder.path(name), err)
		if directory != nil {
			directories = append(directories, directory)
		}
	}
	for _, directory := range directories {
		i.descend(directory, s.folder)
	}
}

// member imports a file, or returns a directory that is to be imported.
func (i *importer) member(s *source, name string, there map[string]members.Member) (*source, error) {
	found, err := s.folder.look(name)
	if err != nil {
		return nil, unnamed(err)
	}
	stored, isThere := there[name]
	switch {
	case !utf8.ValidString(name):
		return nil, onlyHeref("its name is not UTF-8")
	case found.kind != isFile && found.kind != isDirectory:
		return nil, onlyHeref("it is %v", found.kind)
	case isThere && stored.IsCollection != (found.kind == isDirectory):
		return nil, onlyHeref("it is %v, and the store has another there", found.kind)
	case found.kind == isDirectory && i.isWithout(found):
		return nil, onlyHeref("it is the folder of the server")
	case found.kind == isDirectory:
		return i.directory(s, name, stored, isThere), nil
	case isThere && stored.Length == found.length && isSameTime(stored, found.modified):
		i.Progress.Skipped.Add(1)
		i.Progress.Passed.Add(found.length)
		return nil, nil
	}
	s.hold()
	i.jobs <- func(buffer []byte) {
		defer s.release()
		if i.ctx.Err() == nil {
			i.settle(s.folder.path(name), i.file(s, name, buffer))
		}
	}
	return nil, nil
}

// isWithout reports whether a directory is the one that is not imported.
func (i *importer) isWithout(found entry) bool {
	info, err := os.Stat(i.Without)
	if i.Without == "" || err != nil {
		return false
	}
	return found.isSame(info)
}

// directory begins a directory, and has the store make it.
func (i *importer) directory(above *source, name string, stored members.Member, isThere bool) *source {
	s := &source{
		name: above.folder.path(name), path: below(above.path, name),
		self: stored, isNew: !isThere, made: make(chan struct{}),
	}
	s.finish = func() { i.finish(s) }
	s.within(&above.branch)
	if isThere {
		close(s.made)
		return s
	}
	above.changed.Store(true)
	i.jobs <- func([]byte) {
		defer close(s.made)
		if i.ctx.Err() != nil {
			return
		}
		if err := i.makeCollection(s.path); err != nil {
			s.isBad = true
			i.settle(s.name, err)
			return
		}
		i.Progress.Directories.Add(1)
	}
	return s
}

// descend imports what is in a directory, once the store has it.
func (i *importer) descend(s *source, above *folder) {
	<-s.made
	if s.isBad || i.ctx.Err() != nil {
		s.release()
		return
	}
	var err error
	if s.folder, err = above.open(s.name[strings.LastIndexByte(s.name, os.PathSeparator)+1:]); err != nil {
		i.settle(s.name, unnamed(err))
		s.release()
		return
	}
	if !s.isNew {
		if _, s.members, err = i.list(s.path); err != nil {
			s.isBad = true
			i.settle(s.name, err)
			s.release()
			return
		}
	}
	i.walk(s)
}

// finish gives a directory of the store the time of the one that was imported, unless it has it.
func (i *importer) finish(s *source) {
	if s.folder == nil {
		return
	}
	defer s.folder.close()
	if s.isBad || i.ctx.Err() != nil {
		return
	}
	found, err := state(s.folder.file)
	if err != nil {
		i.settle(s.name, unnamed(err))
		return
	}
	if s.isNew || s.changed.Load() || !isSameTime(s.self, found.modified) {
		i.settle(s.name, i.setModified(s.path, storedTime(found.modified)))
	}
}
