package davserve

import (
	"net/http"
	"net/url"
	"strconv"
	"strings"

	"davserve/internal/frame"
)

// withoutRepeats leaves, of a multistatus about a DELETE, COPY or MOVE, the first response for each path: no path may be
// named twice (RFC 4918, section 14.24). davd names a collection once for each member that it may not list. If only the
// path of the request is left, its status is that of the response, as davd does it for a path that is named once.
func withoutRepeats(r *http.Request, response *frame.Response) {
	switch r.Method {
	case http.MethodDelete, "COPY", "MOVE":
	default:
		return
	}
	if response.Status != http.StatusMultiStatus || response.Root == nil {
		return
	}
	named := map[string]bool{}
	var kept []frame.Node
	for _, node := range response.Root.Nodes {
		if path, ok := textIn(node.Element, "href"); ok {
			if named[path] {
				continue
			}
			named[path] = true
		}
		kept = append(kept, node)
	}
	if len(kept) == len(response.Root.Nodes) {
		return
	}
	response.Root.Nodes = kept
	if status, ok := loneStatus(r.URL.Path, kept); ok {
		*response = frame.Response{Status: status, Close: response.Close}
	}
}

// loneStatus returns the status that a multistatus has for a path, if it is about nothing else.
func loneStatus(path string, responses []frame.Node) (int, bool) {
	if len(responses) != 1 {
		return 0, false
	}
	href, _ := textIn(responses[0].Element, "href")
	named, err := url.PathUnescape(href)
	if err != nil || strings.TrimSuffix(named, "/") != strings.TrimSuffix(path, "/") {
		return 0, false
	}
	line, _ := textIn(responses[0].Element, "status")
	words := strings.Fields(line)
	if len(words) < 2 {
		return 0, false
	}
	status, err := strconv.Atoi(words[1])
	return status, err == nil
}

// textIn returns the text of an element of a response in a multistatus.
func textIn(response *frame.Element, name string) (string, bool) {
	if !isDAV(response, "response") {
		return "", false
	}
	for _, node := range response.Nodes {
		if isDAV(node.Element, name) && len(node.Element.Nodes) == 1 {
			return node.Element.Nodes[0].Text, true
		}
	}
	return "", false
}

// isDAV reports whether an element of a multistatus is the one of this name in the namespace DAV:, which has the prefix D
// there.
func isDAV(element *frame.Element, name string) bool {
	return element != nil && element.Prefix == "D" && element.Name == name
}
