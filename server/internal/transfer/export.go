package transfer

import (
	"context"
	"errors"
	"fmt"
	"io/fs"
	"os"
	"path/filepath"

	"davserve/internal/members"
)

// Export copies a directory of the store into a folder of files, which is made if it is not there. When it returns nil,
// each path was copied, was there already or was reported, and what was written is on the disk. Otherwise the error says
// why it ended early.
func Export(ctx context.Context, o Options) error {
	e := exporter{start(ctx, o)}
	top := &target{path: o.Path}
	top.finish = func() { e.finish(top) }
	top.within(nil)
	if err := e.begin(top); err != nil {
		e.settle(o.Path, always(err))
		top.release()
	} else {
		e.Progress.Seen.Add(1)
		e.walk(top)
	}
	return e.end()
}

// An exporter exports one tree.
type exporter struct{ *run }

// A target is a directory that is exported to.
type target struct {
	branch
	path    string // in the store
	self    members.Member
	members []members.Member
	folder  *folder // nil: it is not open
	device  uint64  // that of the folder
	isOwn   bool    // the directory above is on another device, or there is none
}

// begin makes and opens the outermost folder, if the store has the directory.
func (e *exporter) begin(top *target) (err error) {
	top.self, top.members, err = e.list(top.path)
	switch {
	case errors.Is(err, errAbsent):
		return fmt.Errorf("the store has no directory %s", top.path)
	case err != nil:
		return fmt.Errorf("%s in the store: %w", top.path, err)
	case !top.self.IsCollection:
		return fmt.Errorf("%s is a file in the store", top.path)
	}
	if err := e.checkPlace(); err != nil {
		return err
	}
	err = os.Mkdir(e.Dir, 0o777)
	if err != nil && !errors.Is(err, fs.ErrExist) {
		return err
	}
	made := err == nil
	if top.folder, err = openFolder(e.Dir); err != nil {
		return err
	}
	if made {
		e.Progress.Directories.Add(1)
	}
	return e.opened(top, nil)
}

// checkPlace refuses to write into the folder of the store.
func (e *exporter) checkPlace() error {
	if e.Without == "" {
		return nil
	}
	inside, err := isInside(filepath.Dir(filepath.Clean(e.Dir)), e.Without)
	if _, missing := os.Stat(e.Dir); err == nil && missing == nil {
		inside, err = isInside(e.Dir, e.Without)
	}
	if err == nil && inside {
		err = fmt.Errorf("%s is in the folder of the server", e.Dir)
	}
	return err
}

// opened finds out on which device an open target is.
func (e *exporter) opened(t, above *target) error {
	found, err := state(t.folder.file)
	t.device = found.device
	t.isOwn = above == nil || above.device != t.device
	return err
}

// walk exports what is in a directory: first its files, then its directories.
func (e *exporter) walk(t *target) {
	defer func() { e.jobs <- func([]byte) { t.release() } }()
	found := t.members
	t.members = nil
	var directories []members.Member
	for _, m := range found {
		if e.ctx.Err() != nil {
			return
		}
		e.Progress.Seen.Add(1)
		name := m.Name()
		switch {
		case !isPossible(name):
			e.settle(below(t.path, name), onlyHeref("no file can have its name"))
		case m.IsCollection:
			directories = append(directories, m)
		default:
			e.settle(below(t.path, name), e.member(t, m, name))
		}
	}
	for _, m := range directories {
		if e.ctx.Err() != nil {
			return
		}
		e.settle(below(t.path, m.Name()), e.directory(t, m, m.Name()))
	}
}

// member exports a file, unless it is there already.
func (e *exporter) member(t *target, m members.Member, name string) error {
	found, err := t.folder.look(name)
	switch {
	case errors.Is(err, fs.ErrNotExist):
	case err != nil:
		return onlyHere(err)
	case found.kind != isFile:
		return onlyHeref("%s is %v", t.folder.path(name), found.kind)
	case found.length == m.Length && isSameTime(m, found.modified):
		e.Progress.Skipped.Add(1)
		e.Progress.Passed.Add(found.length)
		return nil
	}
	t.hold()
	e.jobs <- func([]byte) {
		defer t.release()
		if e.ctx.Err() == nil {
			e.settle(below(t.path, name), e.file(t, name))
		}
	}
	return nil
}

// directory exports a directory.
func (e *exporter) directory(above *target, m members.Member, name string) error {
	made, err := above.folder.mkdir(name)
	if err != nil {
		return ofTarget(err)
	}
	if made {
		e.Progress.Directories.Add(1)
	}
	folder, err := above.folder.open(name)
	if err != nil {
		if found, lookErr := above.folder.look(name); lookErr == nil && found.kind != isDirectory {
			return onlyHeref("%s is %v", above.folder.path(name), found.kind)
		}
		return onlyHere(err)
	}
	t := &target{path: below(above.path, name), self: m, folder: folder}
	t.finish = func() { e.finish(t) }
	t.within(&above.branch)
	err = e.opened(t, above)
	if err == nil {
		_, t.members, err = e.list(t.path)
	}
	if err != nil {
		t.release()
		return err
	}
	e.walk(t)
	return nil
}

// finish gives a directory the time of the one in the store, unless it has it.
func (e *exporter) finish(t *target) {
	if t.folder == nil {
		return
	}
	defer t.folder.close()
	if e.ctx.Err() != nil {
		return
	}
	found, err := state(t.folder.file)
	if err == nil && !t.self.Modified.IsZero() && !isSameTime(t.self, found.modified) {
		err = t.folder.setModified(".", t.self.Modified)
	}
	if err != nil {
		e.settle(t.path, ofTarget(err))
	}
	if t.isOwn || syncsEach {
		e.settle(t.path, t.folder.sync())
	}
}
