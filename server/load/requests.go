package main

import (
	"bytes"
	"fmt"
	"net/http"
	"time"
)

const (
	smallBytes = 1 << 10
	largeBytes = 20_000_000
	// files is how many small files there are: one for each connection.
	files = mostConnections
	// members is how many files the listed collection has.
	members = 10
)

const properties = `<?xml version="1.0" encoding="utf-8"?>` +
	`<propfind xmlns="DAV:"><prop><getcontentlength/><getlastmodified/><resourcetype/><getetag/></prop></propfind>`

// requestsOf returns the requests that a connection sends in turn, by its number.
func requestsOf(s server, k kind, number int) []request {
	own := fmt.Sprintf("/load/f%d", number%files)
	switch k {
	case put:
		return []request{newRequest(s, http.MethodPut, own, bytes.Repeat([]byte("x"), smallBytes))}
	case propfind0:
		return []request{newPropfind(s, own, "0")}
	case propfind1:
		return []request{newPropfind(s, "/load/d/", "1")}
	}
	var all []request
	for i := 0; i < files; i++ {
		all = append(all, newRequest(s, http.MethodGet, fmt.Sprintf("/load/f%d", (number+i)%files), nil))
	}
	return all
}

func newPropfind(s server, path, depth string) request {
	return newRequest(s, "PROPFIND", path, []byte(properties), "Depth: "+depth, "Content-Type: application/xml")
}

// prepare creates what the load needs. It fails if load/ exists, which may be someone's.
func prepare(s server) error {
	small := bytes.Repeat([]byte("x"), smallBytes)
	needed := []request{newRequest(s, "MKCOL", "/load/", nil)}
	for i := 0; i < files; i++ {
		needed = append(needed, newRequest(s, http.MethodPut, fmt.Sprintf("/load/f%d", i), small))
	}
	needed = append(needed, newRequest(s, "MKCOL", "/load/d/", nil))
	for i := 0; i < members; i++ {
		needed = append(needed, newRequest(s, http.MethodPut, fmt.Sprintf("/load/d/f%d", i), small))
	}
	return sendAll(s, needed)
}

// remove removes what prepare and the load created.
func remove(s server) error {
	return sendAll(s, []request{newRequest(s, http.MethodDelete, "/load/", nil, "Depth: infinity")})
}

// sendAll sends requests of which each must succeed.
func sendAll(s server, requests []request) error {
	c := connection{address: s.address, deadline: time.Now().Add(answerTime)}
	defer c.close()
	for _, r := range requests {
		line, _, _ := bytes.Cut(r.head, []byte(" HTTP/"))
		status, err := c.do(r)
		if err != nil {
			return fmt.Errorf("server %s: %s: %w", s.name, line, err)
		}
		if !isSuccess(status) {
			return fmt.Errorf("server %s: %s returned %d", s.name, line, status)
		}
	}
	return nil
}

func isSuccess(status int) bool { return status >= 200 && status < 300 }
