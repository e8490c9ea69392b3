package davserve

import (
	"bytes"
	"compress/gzip"
	"fmt"
	"io"
	"net/http"
	"strconv"
	"strings"

	"davserve/internal/davxml"
	"davserve/internal/frame"
)

// withoutBody answers a request that may have no body (RFC 4918, section 8.4).
func (h *Handler) withoutBody(w http.ResponseWriter, r *http.Request) error {
	request, err := h.requestWithoutBody(r)
	if err != nil {
		return err
	}
	return h.answer(w, r, request)
}

// requestWithoutBody returns the request that is sent to davd for one that may have no body.
func (h *Handler) requestWithoutBody(r *http.Request) (*frame.Request, error) {
	if err := h.checkNoBody(r); err != nil {
		return nil, err
	}
	return h.request(r)
}

// checkNoBody refuses a body that is not empty.
func (h *Handler) checkNoBody(r *http.Request) error {
	if r.ContentLength == 0 {
		return nil
	}
	if r.ContentLength < 0 {
		n, err := fill(h.bodyOf(r), make([]byte, 1))
		switch {
		case n == 0 && err == io.EOF:
			return nil
		case n == 0:
			return fmt.Errorf("%w: %v", errVanished, err)
		}
	}
	return statusError(http.StatusUnsupportedMediaType)
}

// answer passes a request on and writes the response.
func (h *Handler) answer(w http.ResponseWriter, r *http.Request, request *frame.Request) error {
	response, err := h.ask(r.Context(), request)
	if err != nil {
		return err
	}
	h.setModified(r, response)
	return h.write(w, r, response)
}

// responseOf makes sure that the reply to a request is a response.
func responseOf(reply frame.Reply, err error) (*frame.Response, error) {
	if err != nil {
		return nil, err
	}
	response, ok := reply.(frame.Response)
	if !ok {
		return nil, fmt.Errorf("davd answered a request with a reply %T", reply)
	}
	return &response, nil
}

// write writes a response of davd.
func (h *Handler) write(w http.ResponseWriter, r *http.Request, response *frame.Response) error {
	withoutRepeats(r, response)
	header := w.Header()
	for _, field := range response.Fields {
		if field.Name != "content-length" { // It is about the resource, or 0.
			header.Add(field.Name, field.Value)
		}
	}
	if response.Close {
		header.Set("Connection", "close")
	}
	if r.Method == http.MethodOptions && response.Status == http.StatusOK {
		header.Set("Allow", served(header.Get("Allow"), r.URL.Path))
	}
	if response.Root == nil {
		h.writeStatus(w, r, response.Status)
		return nil
	}
	writeXML(w, r, response.Status, response.Root)
	return nil
}

// writeStatus ends a response without an XML body.
func (h *Handler) writeStatus(w http.ResponseWriter, r *http.Request, status int) {
	switch {
	case status >= 400:
		h.failWith(w, r, status)
	case status == http.StatusNoContent || status == http.StatusNotModified:
		w.WriteHeader(status)
	default:
		w.Header().Set("Content-Length", "0")
		w.WriteHeader(status)
	}
}

// lengthKnown is how many bytes of a body are kept until its header is written. A longer body has no Content-Length.
const lengthKnown = 256 << 10

// writeXML writes an XML body, compressed if it is long and its client accepts that.
func writeXML(w http.ResponseWriter, r *http.Request, status int, root *frame.Element) {
	w.Header().Add("Vary", "Accept-Encoding")
	body := &xmlBody{response: w, status: status, mayZip: acceptsGzip(r.Header)}
	defer body.release()
	if davxml.Write(body, root) == nil {
		body.end()
	}
}

// An xmlBody writes a body behind its header.
type xmlBody struct {
	response http.ResponseWriter
	status   int
	mayZip   bool
	kept     []byte    // what was written, until the header is
	to       io.Writer // what comes after the header, or nil
	zip      *gzip.Writer
}

// Write implements io.Writer.
func (b *xmlBody) Write(p []byte) (int, error) {
	if b.to == nil {
		b.kept = append(b.kept, p...)
		if len(b.kept) <= lengthKnown {
			return len(p), nil
		}
		b.to = b.response
		if b.mayZip {
			b.to = b.zipTo(b.response)
		}
		b.response.WriteHeader(b.status)
		p = b.kept
	}
	_, err := b.to.Write(p)
	return len(p), err
}

// end writes what is kept. An error means that the client has left.
func (b *xmlBody) end() {
	if b.to != nil {
		if b.zip != nil {
			b.zip.Close()
		}
		return
	}
	if b.mayZip && len(b.kept) >= worthGzip {
		var zipped bytes.Buffer
		b.zipTo(&zipped).Write(b.kept)
		b.zip.Close()
		b.kept = zipped.Bytes()
	}
	b.response.Header().Set("Content-Length", strconv.Itoa(len(b.kept)))
	b.response.WriteHeader(b.status)
	b.response.Write(b.kept)
}

// zipTo has the body compressed, and returns what writes it to w.
func (b *xmlBody) zipTo(w io.Writer) io.Writer {
	b.response.Header().Set("Content-Encoding", "gzip")
	b.zip = newGzip(w)
	return b.zip
}

// release gives the writer back that compressed the body.
func (b *xmlBody) release() {
	if b.zip != nil {
		b.zip.Reset(io.Discard) // It keeps no response.
		gzips.Put(b.zip)
	}
}

// allowed returns the methods that are served at the path of a request (RFC 9110, section 10.2.1).
func (h *Handler) allowed(r *http.Request) string {
	request := &frame.Request{Method: "OPTIONS", Path: pathOf(r), Principal: h.principal(r), Token: idleToken}
	response, err := h.ask(r.Context(), request)
	if err != nil {
		return "OPTIONS"
	}
	for _, field := range response.Fields {
		if field.Name == "allow" {
			return served(field.Value, r.URL.Path)
		}
	}
	return "OPTIONS"
}

// served corrects the methods that the engine lists for a path. The engine serves PROPPATCH for each resource that
// exists, and the host serves GET and HEAD for it, for a collection, too. The host serves no PUT to a path with a
// trailing slash.
func served(allow, path string) string {
	listed := map[string]bool{}
	var methods []string
	for _, method := range strings.Split(allow, ",") {
		listed[method] = true
		if method != http.MethodPut || !strings.HasSuffix(path, "/") {
			methods = append(methods, method)
		}
	}
	for _, method := range []string{http.MethodGet, http.MethodHead, "PROPPATCH"} {
		if listed["PROPFIND"] && !listed[method] {
			methods = append(methods, method)
		}
	}
	return strings.Join(methods, ", ")
}
