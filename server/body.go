package davserve

import (
	"bytes"
	"errors"
	"fmt"
	"io"
	"net/http"

	"davserve/internal/limit"
	"davserve/internal/share"
)

// errVanished says that a client ended its connection in the middle of a body.
var errVanished = errors.New("the body did not arrive")

// vanished returns the error of a body that did not arrive. It may be the server that reads no more of it.
func vanished(err error) error {
	if errors.Is(err, share.ErrBusy) {
		return err
	}
	return fmt.Errorf("%w: %v", errVanished, err)
}

// bodyOf returns the body of a request, whose client has to send it at some pace.
func (h *Handler) bodyOf(r *http.Request) io.Reader {
	pace := limit.Pace{Stall: h.options.StallTimeout, Least: h.options.LeastRate}
	return &watched{body: r.Body, dog: limit.Watch(r.Context(), pace)}
}

// A watched reader closes the connection if its client lets it wait for too long.
type watched struct {
	body io.Reader
	dog  *limit.Watchdog
}

// Read implements io.Reader.
func (w *watched) Read(p []byte) (n int, err error) {
	w.dog.Begin()
	defer func() { w.dog.End(n) }()
	return w.body.Read(p)
}

// readAll reads a body of at most so many bytes.
func (h *Handler) readAll(r *http.Request, most int64) ([]byte, error) {
	if r.ContentLength > most {
		return nil, statusError(http.StatusRequestEntityTooLarge)
	}
	if r.ContentLength == 0 {
		return nil, nil
	}
	if length := lengthOf(r, most); length > freeXML {
		if err := need(r.Context(), length*xmlMemory); err != nil {
			return nil, err
		}
	}
	var body bytes.Buffer
	if r.ContentLength > 0 {
		body.Grow(int(r.ContentLength) + bytes.MinRead)
	}
	n, err := body.ReadFrom(io.LimitReader(h.bodyOf(r), most+1))
	switch {
	case err != nil:
		return nil, vanished(err)
	case n > most:
		return nil, statusError(http.StatusRequestEntityTooLarge)
	}
	return body.Bytes(), nil
}

// lengthOf returns how long the body of a request may be.
func lengthOf(r *http.Request, most int64) int64 {
	if r.ContentLength >= 0 {
		return r.ContentLength
	}
	return most
}
