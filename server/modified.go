package davserve

import (
	"net/http"
	"regexp"
	"strconv"
	"strings"
	"time"

	"davserve/internal/frame"
)

// modifiedField is the header field in which clients of ownCloud and Nextcloud, and rclone, send when a file was last
// modified, in seconds since 1970. The response has it with "accepted" if the file has that time.
const modifiedField = "X-OC-Mtime"

// lastModified is the last second that davd shows.
var lastModified = time.Date(9998, time.December, 31, 23, 59, 59, 0, time.UTC).Unix()

// setModified gives the resource that a request has written the time that its client asks for, and says so in the
// response. A resource that is gone by then, or a davd that has ended, changes nothing of the response: the request
// itself has succeeded.
func (h *Handler) setModified(r *http.Request, response *frame.Response) {
	modified, ok := modifiedOf(r.Header)
	path := writtenBy(r)
	if !ok || path == "" || response.Status != http.StatusCreated && response.Status != http.StatusNoContent {
		return
	}
	reply, err := h.engine.Do(r.Context(), frame.SetModified{Path: path, Time: uint64(modified)})
	if _, isDone := reply.(frame.Done); err != nil || !isDone {
		return
	}
	for i := range response.Fields {
		if field := &response.Fields[i]; field.Name == "last-modified" {
			field.Value = time.Unix(modified, 0).UTC().Format(http.TimeFormat)
		}
	}
	response.Fields = append(response.Fields, frame.Field{Name: modifiedField, Value: "accepted"})
}

// modifiedOf returns the time that a client asks for. A time that davd could not show, or before 1970, counts as none.
func modifiedOf(header http.Header) (seconds int64, ok bool) {
	seconds, err := strconv.ParseInt(header.Get(modifiedField), 10, 64)
	return seconds, err == nil && 0 <= seconds && seconds <= lastModified
}

// plainDestination is a Destination whose path every reader of URLs finds to be the same. davd reads the field by other
// rules than Go: to it a backslash is a slash.
var plainDestination = regexp.MustCompile(`^(?:https?://[A-Za-z0-9.:\[\]-]+)?(/[A-Za-z0-9._~%!$&'()*+,;=:@/-]*)$`)

// dots is a segment that names the collection itself or the one above it.
var dots = regexp.MustCompile(`(?i)/(?:\.|%2e){1,2}(?:/|$)`)

// writtenBy returns the path of the file or collection that a request writes, or "" if none is sure to be the one that
// davd has written: nobody may set the time of another file, which the access rules may keep from them.
func writtenBy(r *http.Request) string {
	switch r.Method {
	case http.MethodPut, http.MethodPatch:
		return pathOf(r)
	case "COPY", "MOVE":
		found := plainDestination.FindStringSubmatch(strings.Join(r.Header["Destination"], " "))
		if found == nil || dots.MatchString(found[1]) {
			return ""
		}
		return found[1]
	}
	return ""
}
