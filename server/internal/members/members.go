// Package members lists the members of a collection by a PROPFIND of Depth 1.
package members

import (
	"net/http"
	"net/url"
	"strconv"
	"strings"
	"time"

	"davserve/internal/frame"
)

// A Member is a resource as a PROPFIND describes it. What the response does not say has the zero value.
type Member struct {
	Href         string // percent-encoded; that of a collection ends with a slash
	IsCollection bool
	Length       int64 // of a file, in bytes
	Modified     time.Time
}

// Name returns the last segment of the path of a resource, decoded.
func (m Member) Name() string {
	path := strings.TrimSuffix(m.Href, "/")
	return Unescaped(path[strings.LastIndexByte(path, '/')+1:])
}

// Unescaped returns a segment of a path, decoded.
func Unescaped(segment string) string {
	if name, err := url.PathUnescape(segment); err == nil {
		return name
	}
	return segment
}

// Request returns the request that lists the members of the collection at a path. The token is that of a lock which the
// request does not make.
func Request(path string, principal *string, token string) *frame.Request {
	request := ShortRequest(path, token)
	request.Principal = principal
	request.Body = properties("resourcetype", "getcontentlength", "getlastmodified")
	return request
}

// ShortRequest returns a request like that of Request, whose response says of each member only whether it is a collection.
func ShortRequest(path, token string) *frame.Request {
	return &frame.Request{
		Method: "PROPFIND",
		Path:   path,
		Token:  token,
		Fields: []frame.Field{{Name: "depth", Value: "1"}},
		Body:   properties("resourcetype"),
	}
}

// properties returns the body of a PROPFIND for these properties.
func properties(names ...string) *frame.Element {
	prop := &frame.Element{Name: "prop", Namespace: "DAV:"}
	for _, name := range names {
		element := &frame.Element{Name: name, Prefix: "D", Namespace: "DAV:"}
		prop.Nodes = append(prop.Nodes, frame.Node{Element: element})
	}
	return &frame.Element{Name: "propfind", Namespace: "DAV:", Nodes: []frame.Node{{Element: prop}}}
}

// Of returns the resource and its members that the response to such a request lists. It reports whether the response is
// one.
func Of(response frame.Response) (self Member, members []Member, ok bool) {
	if response.Status != http.StatusMultiStatus || response.Root == nil || len(response.Root.Nodes) == 0 {
		return Member{}, nil, false
	}
	for i, node := range response.Root.Nodes {
		if node.Element == nil {
			continue
		}
		if i == 0 {
			self = One(node.Element)
		} else {
			members = append(members, One(node.Element))
		}
	}
	return self, members, true
}

// One returns the resource that one response in a multistatus describes.
func One(response *frame.Element) Member {
	m := Member{Href: textOf(child(response, "href"))}
	for _, node := range response.Nodes {
		prop := child(node.Element, "prop")
		if length, err := strconv.ParseInt(textOf(child(prop, "getcontentlength")), 10, 64); err == nil {
			m.Length = length
		}
		if modified, err := http.ParseTime(textOf(child(prop, "getlastmodified"))); err == nil {
			m.Modified = modified
		}
		if child(child(prop, "resourcetype"), "collection") != nil {
			m.IsCollection = true
		}
	}
	return m
}

// child returns the first element of this name in another, or nil.
func child(of *frame.Element, name string) *frame.Element {
	if of == nil {
		return nil
	}
	for _, node := range of.Nodes {
		if node.Element != nil && node.Element.Name == name {
			return node.Element
		}
	}
	return nil
}

// textOf returns the strings of an element.
func textOf(element *frame.Element) string {
	if element == nil {
		return ""
	}
	var text strings.Builder
	for _, node := range element.Nodes {
		text.WriteString(node.Text)
	}
	return text.String()
}
