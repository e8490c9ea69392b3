package davserve

import (
	"context"
	"io"
	"net/http"
	"strconv"
	"strings"

	"davserve/internal/davd"
	"davserve/internal/digest"
	"davserve/internal/frame"
)

// piece is how many bytes of a file or of a body are in one frame. A longer body goes to davd in pieces, as they
// arrive.
const piece = 256 << 10

// upload answers a PUT or a PATCH.
func (h *Handler) upload(w http.ResponseWriter, r *http.Request) error {
	if r.Method == http.MethodPut && strings.HasSuffix(r.URL.Path, "/") {
		return statusError(http.StatusMethodNotAllowed) // The engine would create the file without the slash.
	}
	if r.ContentLength > h.options.MaxBody || h.beginsTooFar(r) {
		return statusError(http.StatusRequestEntityTooLarge)
	}
	content, err := digest.Announced(r.Header, isPartial(r))
	if err != nil {
		return statusError(http.StatusBadRequest)
	}
	request, err := h.request(r)
	if err != nil {
		return err
	}
	if err := h.checkUpload(r); err != nil {
		return err
	}
	counts, err := h.beginUpload(r)
	if err != nil {
		return err
	}
	defer counts.lease.Release()
	body := content.Reader(&countedBody{body: h.bodyOf(r), counts: counts})
	first, err := readFirst(body, r.ContentLength)
	switch {
	case err == io.EOF && len(first) > 0 && h.keeps() && r.Method == http.MethodPut:
		// A file is replaced when its new content is stored. If the disk has no room for that, it stays as it was.
		return h.store(w, r, request, content, first, nil)
	case err == io.EOF:
		request.Body = frame.Bytes(first)
		return h.finish(w, r, request, content, int64(len(first)), h.engine.Do)
	case err != nil:
		return vanished(err)
	}
	return h.store(w, r, request, content, first, body)
}

// A countedBody has the bytes of an upload count.
type countedBody struct {
	body   io.Reader
	counts *underWay
}

// Read implements io.Reader.
func (b *countedBody) Read(p []byte) (int, error) {
	n, err := b.body.Read(p)
	if busy := b.counts.came(n); busy != nil {
		return n, busy
	}
	return n, err
}

// isPartial reports whether an upload has only a part of a file.
func isPartial(r *http.Request) bool {
	return r.Method == http.MethodPatch || r.Header.Get("Content-Range") != ""
}

// keeps reports whether davd keeps everything in a folder.
func (h *Handler) keeps() bool { return h.options.Folder != "" }

// beginsTooFar reports whether a partial update names a place that no body could reach. The store would fill the gap
// before it.
func (h *Handler) beginsTooFar(r *http.Request) bool {
	for _, name := range []string{"X-Update-Range", "Content-Range"} {
		for _, text := range r.Header[name] {
			for _, digits := range strings.FieldsFunc(text, isNotDigit) {
				if n, err := strconv.ParseInt(digits, 10, 64); err != nil || n > h.options.MaxBody {
					return true
				}
			}
		}
	}
	return false
}

func isNotDigit(c rune) bool { return c < '0' || c > '9' }

// readFirst reads a body up to the length of a piece. The error is io.EOF if that is the whole of it. A negative length
// is not known.
func readFirst(body io.Reader, length int64) ([]byte, error) {
	size := int64(piece)
	if 0 <= length && length < size {
		size = length + 1 // So that the end is read, too.
	}
	first := make([]byte, size)
	n, err := fill(body, first)
	return first[:n], err
}

// fill reads until the buffer is full. If the body ends before that, the error is io.EOF. A body that breaks off is
// another error.
func fill(body io.Reader, buffer []byte) (int, error) {
	n := 0
	for n < len(buffer) {
		m, err := body.Read(buffer[n:])
		n += m
		if err != nil {
			return n, err
		}
	}
	return n, nil
}

// store has davd store a body in pieces, and sends the request with the last one. If the first piece is all, rest is nil.
func (h *Handler) store(w http.ResponseWriter, r *http.Request, request *frame.Request, content *digest.Content, first []byte, rest io.Reader) error {
	stored, err := h.engine.StartBody(r.Context())
	if err != nil {
		return err
	}
	defer stored.Drop()
	last, length, err := h.sendPieces(r.Context(), stored, first, rest)
	if err != nil {
		return err
	}
	return h.finish(w, r, request, content, length, func(ctx context.Context, _ frame.Frame) (frame.Reply, error) {
		return stored.Do(ctx, last, request)
	})
}

// sendPieces sends the pieces of a body to davd, all but the last one, which it returns with the length of the body. The
// buffer has the first piece. If that is all, rest is nil.
func (h *Handler) sendPieces(ctx context.Context, to *davd.Body, buffer []byte, rest io.Reader) (last []byte, length int64, err error) {
	n, end := len(buffer), error(nil)
	if rest == nil {
		end = io.EOF
	}
	for {
		if length += int64(n); length > h.options.MaxBody {
			return nil, length, statusError(http.StatusRequestEntityTooLarge)
		}
		if end == io.EOF {
			return buffer[:n], length, nil
		}
		if err := to.Add(ctx, buffer[:n]); err != nil {
			return nil, length, err
		}
		if n, end = fill(rest, buffer); end != nil && end != io.EOF {
			return nil, length, vanished(end)
		}
	}
}

// A sender sends the frame of a request.
type sender func(context.Context, frame.Frame) (frame.Reply, error)

// finish sends the request of an upload whose body is complete, if its length and its digests are as the client said and
// the quota has room for it.
func (h *Handler) finish(w http.ResponseWriter, r *http.Request, request *frame.Request, content *digest.Content, length int64, send sender) error {
	if length > h.options.MaxBody {
		return statusError(http.StatusRequestEntityTooLarge)
	}
	if content.Check() != nil {
		return statusError(http.StatusPreconditionFailed)
	}
	if expected := r.Header.Get("X-Expected-Entity-Length"); expected != "" && expected != strconv.FormatInt(length, 10) {
		return statusError(http.StatusBadRequest) // The client of macOS announces the length of a chunked body so.
	}
	setLength(request, length)
	response, err := h.sendWithin(r, request, length, send)
	if err != nil {
		return err
	}
	h.setModified(r, response)
	return h.write(w, r, response)
}

// sendWithin sends the request of an upload if the quota has room for it.
func (h *Handler) sendWithin(r *http.Request, request *frame.Request, length int64, send sender) (*frame.Response, error) {
	release, err := h.reserveUpload(r, length)
	if err != nil {
		return nil, err
	}
	defer release()
	return responseOf(send(r.Context(), request))
}
