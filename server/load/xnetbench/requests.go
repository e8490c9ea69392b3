//go:build ignore

package main

import (
	"bytes"
	"net/http"
	"strconv"
	"strings"
)

// content is what a PUT writes.
var content = bytes.Repeat([]byte("x"), 1024)

// The bodies of requests, as tools/loads.py has them.
const (
	lockInfo = `<D:lockinfo xmlns:D="DAV:"><D:lockscope><D:exclusive/></D:lockscope>` +
		`<D:locktype><D:write/></D:locktype></D:lockinfo>`
	findFive = `<D:propfind xmlns:D="DAV:"><D:prop><D:resourcetype/><D:getcontentlength/><D:getlastmodified/>` +
		`<D:getetag/><D:displayname/></D:prop></D:propfind>`
	findLength = `<D:propfind xmlns:D="DAV:"><D:prop><D:getcontentlength/></D:prop></D:propfind>`
	findDead   = `<D:propfind xmlns:D="DAV:"><D:prop><Z:color xmlns:Z="urn:z"/></D:prop></D:propfind>`
	setBefore  = `<D:propertyupdate xmlns:D="DAV:"><D:set><D:prop><Z:color xmlns:Z="urn:z">value `
	setAfter   = `</Z:color></D:prop></D:set></D:propertyupdate>`
)

// makeCollection serves a MKCOL of a collection that does not exist.
func (s *server) makeCollection(path string) {
	s.do("MKCOL", path, nil, http.NoBody, http.StatusCreated)
}

// put serves a PUT of 1 KiB. The handler returns 201 also for a file that exists.
func (s *server) put(path string) {
	fields := []field{{"content-length", "1024"}}
	s.do("PUT", path, fields, bytes.NewReader(content), http.StatusCreated)
}

// putLocked serves a PUT of 1 KiB over a file, with the token of the lock that covers it.
func (s *server) putLocked(path, token string) {
	fields := []field{{"if", "(<" + token + ">)"}, {"content-length", "1024"}}
	s.do("PUT", path, fields, bytes.NewReader(content), http.StatusCreated)
}

// lock serves a LOCK that requests an exclusive lock, and returns its token, which the lock system chooses.
func (s *server) lock(path string, due int) string {
	w := s.do("LOCK", path, nil, strings.NewReader(lockInfo), due)
	return strings.Trim(w.Header().Get("lock-token"), "<>")
}

// unlock serves an UNLOCK of the lock with this token.
func (s *server) unlock(path, token string) {
	fields := []field{{"lock-token", "<" + token + ">"}}
	s.do("UNLOCK", path, fields, http.NoBody, http.StatusNoContent)
}

// deleteTree serves a DELETE of a tree of count resources.
func (s *server) deleteTree(path string, count int) {
	s.do("DELETE", path, nil, http.NoBody, http.StatusNoContent)
	s.countEach(count)
}

// copyTree serves a COPY of a tree of count resources to a destination where nothing exists.
func (s *server) copyTree(path, destination string, count int) {
	s.do("COPY", path, []field{{"destination", destination}}, http.NoBody, http.StatusCreated)
	s.countEach(count)
}

// moveTree serves a MOVE of a tree of count resources to a destination where nothing exists.
func (s *server) moveTree(path, destination string, count int) {
	s.do("MOVE", path, []field{{"destination", destination}}, http.NoBody, http.StatusCreated)
	s.countEach(count)
}

// find serves a PROPFIND. Its body is XML, or empty, which requests all properties.
func (s *server) find(path, body string, fields ...field) {
	s.do("PROPFIND", path, fields, strings.NewReader(body), http.StatusMultiStatus)
}

// patchProperty serves a PROPPATCH that sets a dead property. The value contains number.
func (s *server) patchProperty(path string, number int) {
	body := strings.NewReader(setBefore + strconv.Itoa(number) + setAfter)
	s.do("PROPPATCH", path, nil, body, http.StatusMultiStatus)
}
