package scrub

import (
	"errors"
	"fmt"
	"net/http"
	"sort"
	"strings"
	"time"

	"davserve/internal/davd"
	"davserve/internal/frame"
	"davserve/internal/members"
)

// A walk goes over all files, one collection after the other, and in each by the names.
//
// It keeps the next names of each collection that it is in. If they are too many, it forgets those of the outermost ones,
// and of one that is long it keeps only the first. It lists a collection again when it needs the others. So its memory is
// bounded, whatever the tree is, beside one list at a time.
type walk struct {
	run    *run
	levels []level
	path   string // of the innermost collection, with a slash at the end
	kept   int    // bytes of the names that are kept
	peak   int    // the most that they were
}

// A level is a collection that a walk is in.
type level struct {
	length int      // of its path
	names  []string // the next members, percent-encoded, in order; that of a collection has a slash at the end
	last   string   // the member that was the last one; empty: there was none
	isPart bool     // there may be members after these
}

func newWalk(r *run) *walk {
	return &walk{run: r, path: r.Path, levels: []level{{length: len(r.Path), isPart: true}}}
}

// next returns the path of the next file. After the last one the error is errEnd.
func (w *walk) next() (string, error) {
	for len(w.levels) > 0 {
		inner := &w.levels[len(w.levels)-1]
		switch {
		case len(inner.names) > 0:
			name := w.take(inner)
			if !strings.HasSuffix(name, "/") {
				return w.path + name, nil
			}
			w.enter(name)
		case inner.isPart:
			if err := w.run.settle(w.path, w.list(inner)); err != nil {
				return "", err
			}
		default:
			w.leave()
		}
	}
	return "", errEnd
}

// take takes the next member of a collection.
func (w *walk) take(l *level) string {
	name := l.names[0]
	l.names[0] = ""
	l.names, l.last = l.names[1:], name
	w.kept -= cost(name)
	return name
}

// enter goes into a member that is a collection. Names of the outermost collections are forgotten if there are too many.
func (w *walk) enter(name string) {
	w.path += name
	w.levels = append(w.levels, level{length: len(w.path), isPart: true})
	for i := 0; i < len(w.levels) && w.kept > w.run.limits.names/2; i++ {
		outer := &w.levels[i]
		for _, it := range outer.names {
			w.kept -= cost(it)
		}
		outer.isPart = outer.isPart || len(outer.names) > 0
		outer.names = nil
	}
}

// leave goes back to the collection above.
func (w *walk) leave() {
	w.levels = w.levels[:len(w.levels)-1]
	if len(w.levels) > 0 {
		w.path = w.path[:w.levels[len(w.levels)-1].length]
	}
}

// list finds the next members of the innermost collection. If it cannot be listed, it has none.
func (w *walk) list(l *level) error {
	l.isPart = false
	var found window
	err := w.run.patiently(w.path, func() error {
		if err := w.run.yield(); err != nil {
			return err
		}
		found = window{after: l.last, limit: w.run.limits.names / 2}
		began := time.Now()
		if err := w.members(&found); err != nil {
			return err
		}
		return w.run.pace(0, time.Since(began))
	})
	var failed *davd.StatusError
	switch {
	case errors.As(err, &failed) && failed.Status == http.StatusNotFound:
		return errGone
	case errors.As(err, &failed):
		return unread(fmt.Errorf("its members are not listed: status %d", failed.Status))
	case err != nil:
		return err
	}
	sort.Strings(found.names)
	l.names, l.isPart = found.names, found.below != ""
	if w.kept += found.size; w.kept > w.peak {
		w.peak = w.kept
	}
	return nil
}

// members passes the members of the innermost collection on.
func (w *walk) members(to *window) error {
	isFirst := true
	response, err := w.run.Store.Each(w.run.ctx, members.ShortRequest(w.path, noToken), func(e *frame.Element) {
		if !isFirst { // The first one is the collection.
			to.add(members.One(e))
		}
		isFirst = false
	})
	switch {
	case err != nil:
		return err
	case response.Status != http.StatusMultiStatus:
		return &davd.StatusError{Status: response.Status}
	case isFirst:
		return fmt.Errorf("davd lists nothing at %q", w.path)
	}
	return nil
}

// nameOverhead is how many bytes a name takes beside its own.
const nameOverhead = 32

// cost returns how many bytes a name takes that is kept.
func cost(name string) int { return len(name) + nameOverhead }

// A window has the first names of a list that come after one of them, as many as find room.
type window struct {
	after string // empty: all do
	below string // this name and later ones are left out; empty: none is
	names []string
	size  int
	limit int
}

// add adds a member, if it belongs to the window.
func (w *window) add(m members.Member) {
	path := strings.TrimSuffix(m.Href, "/")
	name := path[strings.LastIndexByte(path, '/')+1:]
	if m.IsCollection {
		name += "/"
	}
	if name <= w.after || w.below != "" && name >= w.below {
		return
	}
	w.names = append(w.names, strings.Clone(name)) // Not a part of the list.
	w.size += cost(name)
	if w.size > w.limit && len(w.names) > 1 {
		w.halve()
	}
}

// halve leaves the later half of the names out.
func (w *window) halve() {
	sort.Strings(w.names)
	half := len(w.names) / 2
	w.below = w.names[half]
	for i := half; i < len(w.names); i++ {
		w.size -= cost(w.names[i])
		w.names[i] = ""
	}
	w.names = w.names[:half]
}
