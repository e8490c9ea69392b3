package scrub

import (
	"context"
	"fmt"
	"sort"
	"strings"
	"time"

	"davserve/internal/davd"
	"davserve/internal/frame"
)

// A fake is a store in memory. The paths of collections end with a slash.
type fake struct {
	files  map[string]file            // by the path
	below  map[string]map[string]bool // the members of each collection: their names, with a slash at the end of a collection
	asked  map[string]int             // how many times each path was read or listed
	before func(f *fake, what string) error
	busy   int // how many times it is busy yet
	order  []string
}

type file struct {
	length  uint64
	version int
}

func newFake(paths ...string) *fake {
	f := &fake{files: map[string]file{}, below: map[string]map[string]bool{"/": {}}, asked: map[string]int{}}
	for _, path := range paths {
		f.add(path, 10)
	}
	return f
}

// add adds a file, or a collection, and the collections above it.
func (f *fake) add(path string, length uint64) {
	if f.below[path] != nil {
		return
	}
	if strings.HasSuffix(path, "/") {
		f.below[path] = map[string]bool{}
	} else {
		f.files[path] = file{length, f.files[path].version + 1}
	}
	at := strings.LastIndexByte(strings.TrimSuffix(path, "/"), '/') + 1
	f.add(path[:at], 0)
	f.below[path[:at]][path[at:]] = true
}

// remove removes a file.
func (f *fake) remove(path string) {
	at := strings.LastIndexByte(path, '/') + 1
	delete(f.files, path)
	delete(f.below[path[:at]], path[at:])
}

func (f *fake) begin(what string) error {
	f.asked[what]++
	if f.before == nil {
		return nil
	}
	return f.before(f, what)
}

// Read implements Store.
func (f *fake) Read(ctx context.Context, read frame.Read) (frame.Reply, error) {
	if err := f.begin(fmt.Sprintf("READ %s %d", read.Path, read.Offset)); err != nil {
		return nil, err
	}
	if f.below[read.Path+"/"] != nil {
		return frame.Collection{}, nil
	}
	found, ok := f.files[read.Path]
	if !ok {
		return nil, &davd.StatusError{Status: 404}
	}
	tag := fmt.Sprint(found.version)
	if read.ETag != nil && *read.ETag != tag {
		return nil, &davd.StatusError{Status: 412}
	}
	if read.Offset == 0 {
		f.order = append(f.order, read.Path)
	}
	count := read.Count
	if left := found.length - read.Offset; left < count {
		count = left
	}
	return frame.Part{Length: found.length, ETag: &tag, Bytes: make([]byte, count)}, nil
}

// Each implements Store.
func (f *fake) Each(ctx context.Context, r *frame.Request, visit func(*frame.Element)) (frame.Response, error) {
	if err := f.begin("LIST " + r.Path); err != nil {
		return frame.Response{}, err
	}
	below, ok := f.below[r.Path]
	if !ok {
		return frame.Response{Status: 404}, nil
	}
	one := newDescription()
	visit(one.of(r.Path))
	for name := range below {
		visit(one.of(r.Path + name))
	}
	return frame.Response{Status: 207}, nil
}

// IsBusy implements Store.
func (f *fake) IsBusy() bool {
	if f.busy > 0 {
		f.busy--
		return true
	}
	return false
}

// A description is a response of a multistatus, which is used again for each resource.
type description struct {
	element *frame.Element
	href    *frame.Node
	kind    *frame.Element
}

func newDescription() description {
	kind := &frame.Element{Name: "resourcetype"}
	prop := &frame.Element{Name: "prop", Nodes: []frame.Node{{Element: kind}}}
	href := &frame.Element{Name: "href", Nodes: []frame.Node{{}}}
	return description{
		element: &frame.Element{Name: "response", Nodes: []frame.Node{
			{Element: href},
			{Element: &frame.Element{Name: "propstat", Nodes: []frame.Node{{Element: prop}}}},
		}},
		href: &href.Nodes[0],
		kind: kind,
	}
}

var isCollection = []frame.Node{{Element: &frame.Element{Name: "collection"}}}

// of returns the response for a path.
func (d description) of(path string) *frame.Element {
	d.href.Text, d.kind.Nodes = path, nil
	if strings.HasSuffix(path, "/") {
		d.kind.Nodes = isCollection
	}
	return d.element
}

// A result is what a run has left.
type result struct {
	err    error
	counts Counts
	found  []string // the kind, the path and the reason of each finding, in order
}

// quick are limits for tests.
var quick = limits{names: 1 << 20, pause: time.Millisecond, patience: time.Minute}

// check runs over a fake.
func check(ctx context.Context, f *fake, l limits) result {
	var r result
	var progress Progress
	r.err = Run(ctx, Options{Store: f, Path: "/", Progress: &progress, limits: l, Report: func(found Finding) {
		r.found = append(r.found, strings.TrimSuffix(fmt.Sprintf("%s %s %s", found.Kind, found.Path, found.Reason), " "))
	}})
	r.counts = progress.Counts()
	sort.Strings(r.found)
	return r
}
