package transfer

import (
	"context"
	"fmt"
	"net/http"
	"net/url"
	"sort"
	"strings"
	"sync"
	"sync/atomic"
	"testing"
	"time"

	"davserve/internal/davd"
	"davserve/internal/frame"
)

// A fake is a store in memory.
type fake struct {
	mu       sync.Mutex
	nodes    map[string]*node // by the path, percent-encoded, without a slash at the end
	now      uint64
	requests []string
	fails    map[string]int // the status of a frame, such as "PUT /a"
	errs     map[string]error
	before   func(what string) // is called before each frame
	bodies   int               // that were begun and not dropped
}

type node struct {
	isCollection bool
	bytes        []byte
	modified     uint64
}

func newFake() *fake {
	return &fake{
		nodes: map[string]*node{"": {isCollection: true, modified: 1}}, now: 1000,
		fails: map[string]int{}, errs: map[string]error{},
	}
}

// file adds a file, and the collections above it.
func (f *fake) file(path, bytes string, modified uint64) {
	f.collection(path[:strings.LastIndexByte(path, '/')], 500)
	f.nodes[path] = &node{bytes: []byte(bytes), modified: modified}
}

func (f *fake) collection(path string, modified uint64) {
	if f.nodes[path] == nil {
		f.collection(path[:strings.LastIndexByte(path, '/')], modified)
		f.nodes[path] = &node{isCollection: true, modified: modified}
	}
}

// begin notes a frame, and returns why it fails, or nil.
func (f *fake) begin(what string) error {
	if f.before != nil {
		f.before(what)
	}
	f.mu.Lock()
	defer f.mu.Unlock()
	f.requests = append(f.requests, what)
	if err := f.errs[what]; err != nil {
		return err
	}
	if status := f.fails[what]; status != 0 {
		return &davd.StatusError{Status: status}
	}
	return nil
}

// count returns how many frames began so.
func (f *fake) count(what string) (n int) {
	f.mu.Lock()
	defer f.mu.Unlock()
	for _, it := range f.requests {
		if strings.HasPrefix(it, what) {
			n++
		}
	}
	return n
}

// cancelAt returns a context that is canceled before the nth frame that begins so is served, counted from now.
func (f *fake) cancelAt(n int64, what string) (context.Context, context.CancelFunc) {
	ctx, cancel := context.WithCancel(context.Background())
	var arrived atomic.Int64
	f.before = func(frame string) {
		if strings.HasPrefix(frame, what) && arrived.Add(1) >= n {
			cancel()
		}
	}
	return ctx, cancel
}

func (f *fake) Do(ctx context.Context, request frame.Frame) (frame.Reply, error) {
	if ctx.Err() != nil {
		return nil, ctx.Err()
	}
	switch request := request.(type) {
	case *frame.Request:
		err := f.begin(request.Method + " " + request.Path)
		if failed, ok := err.(*davd.StatusError); ok {
			return frame.Response{Status: failed.Status}, nil
		}
		if err != nil {
			return nil, err
		}
		return f.serve(request, nil), nil
	case frame.Read:
		if err := f.begin(fmt.Sprintf("READ %s %d", request.Path, request.Offset)); err != nil {
			return nil, err
		}
		return f.read(request)
	}
	return nil, fmt.Errorf("an unknown frame %T", request)
}

func (f *fake) read(r frame.Read) (frame.Reply, error) {
	f.mu.Lock()
	defer f.mu.Unlock()
	found := f.nodes[key(r.Path)]
	switch {
	case found == nil:
		return nil, &davd.StatusError{Status: 404}
	case found.isCollection:
		return frame.Collection{}, nil
	}
	tag := fmt.Sprint(len(found.bytes))
	if r.ETag != nil && *r.ETag != tag {
		return nil, &davd.StatusError{Status: 412}
	}
	end := r.Offset + r.Count
	if end > uint64(len(found.bytes)) {
		end = uint64(len(found.bytes))
	}
	modified := found.modified
	return frame.Part{
		Length: uint64(len(found.bytes)), Modified: &modified, ETag: &tag, Bytes: found.bytes[r.Offset:end],
	}, nil
}

func key(path string) string { return strings.TrimSuffix(path, "/") }

// serve answers a request.
func (f *fake) serve(r *frame.Request, body []byte) frame.Response {
	f.mu.Lock()
	defer f.mu.Unlock()
	path := key(r.Path)
	found := f.nodes[path]
	switch r.Method {
	case "PROPFIND":
		if found == nil {
			return frame.Response{Status: 404}
		}
		return frame.Response{Status: 207, Root: f.list(path)}
	case "MKCOL":
		if found != nil {
			return frame.Response{Status: 405}
		}
		return f.put(path, &node{isCollection: true})
	case "PUT":
		if found != nil && found.isCollection {
			return frame.Response{Status: 405}
		}
		return f.put(path, &node{bytes: body})
	}
	return frame.Response{Status: 501}
}

func (f *fake) put(path string, n *node) frame.Response {
	above := f.nodes[path[:strings.LastIndexByte(path, '/')]]
	if above == nil || !above.isCollection {
		return frame.Response{Status: 409}
	}
	f.now++
	above.modified, n.modified = f.now, f.now
	f.nodes[path] = n
	return frame.Response{Status: 201}
}

// list returns the multistatus of a resource and its members.
func (f *fake) list(path string) *frame.Element {
	paths := []string{}
	for other := range f.nodes {
		if strings.HasPrefix(other, path+"/") && !strings.Contains(other[len(path)+1:], "/") {
			paths = append(paths, other)
		}
	}
	sort.Strings(paths)
	if !f.nodes[path].isCollection {
		paths = nil
	}
	root := &frame.Element{Name: "multistatus"}
	for _, it := range append([]string{path}, paths...) {
		root.Nodes = append(root.Nodes, frame.Node{Element: f.nodes[it].describe(it)})
	}
	return root
}

func (n *node) describe(path string) *frame.Element {
	text := func(name, value string) frame.Node {
		return frame.Node{Element: &frame.Element{Name: name, Nodes: []frame.Node{{Text: value}}}}
	}
	prop := &frame.Element{Name: "prop", Nodes: []frame.Node{
		text("getlastmodified", time.Unix(int64(n.modified), 0).UTC().Format(http.TimeFormat)),
	}}
	if n.isCollection {
		path += "/"
		kind := &frame.Element{Name: "resourcetype", Nodes: []frame.Node{{Element: &frame.Element{Name: "collection"}}}}
		prop.Nodes = append(prop.Nodes, frame.Node{Element: kind})
	} else {
		prop.Nodes = append(prop.Nodes, text("getcontentlength", fmt.Sprint(len(n.bytes))))
	}
	propstat := &frame.Element{Name: "propstat", Nodes: []frame.Node{{Element: prop}}}
	return &frame.Element{Name: "response", Nodes: []frame.Node{text("href", path), {Element: propstat}}}
}

func (f *fake) SetModified(ctx context.Context, path string, modified uint64) error {
	if ctx.Err() != nil {
		return ctx.Err()
	}
	if err := f.begin("TIME " + path); err != nil {
		return err
	}
	f.mu.Lock()
	defer f.mu.Unlock()
	if found := f.nodes[key(path)]; found != nil {
		found.modified = modified
		return nil
	}
	return &davd.StatusError{Status: 404}
}

func (f *fake) StartBody(ctx context.Context) (Body, error) {
	if ctx.Err() != nil {
		return nil, ctx.Err()
	}
	if err := f.begin("BODY"); err != nil {
		return nil, err
	}
	f.mu.Lock()
	defer f.mu.Unlock()
	f.bodies++
	return &fakeBody{fake: f}, nil
}

type fakeBody struct {
	fake  *fake
	bytes []byte
}

func (b *fakeBody) Add(ctx context.Context, piece []byte) error {
	if ctx.Err() != nil {
		return ctx.Err()
	}
	if err := b.fake.begin("ADD"); err != nil {
		return err
	}
	b.bytes = append(b.bytes, piece...)
	return nil
}

func (b *fakeBody) Do(ctx context.Context, last []byte, r *frame.Request) (frame.Reply, error) {
	b.bytes = append(b.bytes, last...)
	err := b.fake.begin(r.Method + " " + r.Path)
	if failed, ok := err.(*davd.StatusError); ok {
		return frame.Response{Status: failed.Status}, nil
	}
	if err != nil {
		return nil, err
	}
	return b.fake.serve(r, b.bytes), nil
}

func (b *fakeBody) Drop() {
	b.fake.mu.Lock()
	defer b.fake.mu.Unlock()
	b.fake.bodies--
}

// content returns what the store has: each path, decoded, with the bytes and the time.
func (f *fake) content(t *testing.T) map[string]string {
	t.Helper()
	found := map[string]string{}
	for path, n := range f.nodes {
		name, err := url.PathUnescape(path)
		if err != nil {
			t.Fatal(err)
		}
		if n.isCollection {
			found[name+"/"] = fmt.Sprint(n.modified)
		} else {
			found[name] = fmt.Sprintf("%d %s", n.modified, n.bytes)
		}
	}
	return found
}
