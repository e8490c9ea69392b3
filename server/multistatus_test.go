package davserve

import (
	"net/http"
	"net/url"
	"reflect"
	"testing"

	"davserve/internal/frame"
)

func dav(name string, nodes ...frame.Node) frame.Node {
	return frame.Node{Element: &frame.Element{Name: name, Prefix: "D", Nodes: nodes}}
}

func named(path, status string) frame.Node {
	return dav("response", dav("href", frame.Node{Text: path}), dav("status", frame.Node{Text: "HTTP/1.1 " + status}))
}

func multistatus(nodes []frame.Node) frame.Response {
	root := &frame.Element{Name: "multistatus", Prefix: "D", Nodes: append([]frame.Node(nil), nodes...)}
	return frame.Response{Status: http.StatusMultiStatus, Fields: []frame.Field{{Name: "content-type", Value: "application/xml"}}, Root: root}
}

func TestWithoutRepeats(t *testing.T) {
	other := dav("responsedescription", frame.Node{Text: "/a/"})
	forbidden, full := named("/a%20b/", "403 Forbidden"), named("/a%20b/", "507 Insufficient Storage")
	below := named("/a%20b/c/", "403 Forbidden")
	all := []frame.Node{forbidden, below, forbidden, other, full, other}
	for _, test := range []struct {
		name, method string
		given, want  []frame.Node // no want: the status alone
	}{
		{"DELETE", "DELETE", all, []frame.Node{forbidden, below, other, other}},
		{"COPY", "COPY", all, []frame.Node{forbidden, below, other, other}},
		{"MOVE", "MOVE", all, []frame.Node{forbidden, below, other, other}},
		{"PROPFIND", "PROPFIND", all, all},
		{"the path of the request", "DELETE", []frame.Node{forbidden, full}, nil},
		{"the path of the request once", "DELETE", []frame.Node{forbidden}, []frame.Node{forbidden}},
		{"a path below", "DELETE", []frame.Node{below, below}, []frame.Node{below}},
	} {
		t.Run(test.name, func(t *testing.T) {
			got, want := multistatus(test.given), multistatus(test.want)
			if test.want == nil {
				want = frame.Response{Status: http.StatusForbidden}
			}
			withoutRepeats(&http.Request{Method: test.method, URL: &url.URL{Path: "/a b"}}, &got)
			if !reflect.DeepEqual(got, want) {
				t.Errorf("got %v, want %v", got, want)
			}
		})
	}
}

func TestWithoutRepeatsLeavesOtherResponses(t *testing.T) {
	request := &http.Request{Method: http.MethodDelete, URL: &url.URL{Path: "/a"}}
	for _, response := range []frame.Response{{Status: http.StatusMultiStatus}, {Status: http.StatusNoContent}} {
		got := response
		if withoutRepeats(request, &got); !reflect.DeepEqual(got, response) {
			t.Errorf("got %v, want %v", got, response)
		}
	}
}
