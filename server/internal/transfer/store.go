package transfer

import (
	"errors"
	"fmt"
	"net/http"
	"strings"
	"time"

	"davserve/internal/davd"
	"davserve/internal/frame"
	"davserve/internal/members"
)

// errFull says that nothing more can be stored.
var errFull = errors.New("the store is full: its disk, a quota of it, or the memory of davd")

// errAbsent says that no resource exists at a path of the store.
var errAbsent = errors.New("the store has no such resource")

// fromStore returns an error of the store as one of a single path, if others may be without it.
func fromStore(err error) error {
	var failed *davd.StatusError
	switch {
	case errors.As(err, &failed):
		return ofStatus(failed.Status)
	case errors.Is(err, davd.ErrFull):
		return errFull
	}
	return err
}

// ofStatus returns the error that the status of a response or of a frame is, or nil.
func ofStatus(status int) error {
	switch {
	case status == http.StatusInsufficientStorage:
		return errFull
	case status == http.StatusLocked:
		return onlyHeref("it is locked")
	case status == http.StatusNotFound:
		return onlyHere(errAbsent)
	case status >= 500:
		return onlyHeref("the store cannot read or write it, it may be damaged (status %d)", status)
	case status >= 300:
		return onlyHeref("the store refuses it (status %d)", status)
	}
	return nil
}

// response sends a request, and returns the response to it.
func (r *run) response(reply frame.Reply, err error) (frame.Response, error) {
	if err != nil {
		return frame.Response{}, fromStore(err)
	}
	response, ok := reply.(frame.Response)
	if !ok {
		return frame.Response{}, fmt.Errorf("davd answered a request with a reply %T", reply)
	}
	return response, ofStatus(response.Status)
}

// list returns a resource and its members. If there is none, the error is errAbsent.
func (r *run) list(path string) (self members.Member, found []members.Member, err error) {
	response, err := r.response(r.Store.Do(r.ctx, members.Request(path, nil, noToken)))
	if err != nil {
		return self, nil, err
	}
	self, found, ok := members.Of(response)
	if !ok {
		return self, nil, onlyHeref("the store does not list its members (status %d)", response.Status)
	}
	return self, found, nil
}

// makeCollection makes a collection.
func (r *run) makeCollection(path string) error {
	_, err := r.response(r.Store.Do(r.ctx, &frame.Request{Method: "MKCOL", Path: path, Token: noToken}))
	return err
}

// errOld says that davd does not know the frame that sets a time. It has accepted the path before.
var errOld = errors.New("davd is older than this program, and cannot set times")

// setModified sets when a resource was last modified.
func (r *run) setModified(path string, time uint64) error {
	err := r.Store.SetModified(r.ctx, path, time)
	var failed *davd.StatusError
	if errors.As(err, &failed) && failed.Status == http.StatusBadRequest {
		return errOld
	}
	if err != nil {
		return fromStore(err)
	}
	return nil
}

// lastTime is the last second that davd lists: later ones have no date of HTTP.
const lastTime = 253402300798 // 9999-12-31T23:59:58Z

// storedTime returns a time as the store has it: in whole seconds, and none before 1970 or after 9999.
func storedTime(t time.Time) uint64 {
	switch seconds := t.Unix(); {
	case seconds < 0:
		return 0
	case seconds > lastTime:
		return lastTime
	default:
		return uint64(seconds)
	}
}

// isSameTime reports whether the time of a resource is one of a file.
func isSameTime(resource members.Member, t time.Time) bool {
	return !resource.Modified.IsZero() && storedTime(resource.Modified) == storedTime(t)
}

// below returns the path of a member, percent-encoded.
func below(path, name string) string {
	return strings.TrimSuffix(path, "/") + "/" + escape(name)
}
