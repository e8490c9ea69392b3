package members

import (
	"reflect"
	"testing"
	"time"

	"davserve/internal/frame"
)

// element returns a node with other nodes, or with a string.
func element(name, text string, nodes ...frame.Node) frame.Node {
	if text != "" {
		nodes = []frame.Node{{Text: text}}
	}
	return frame.Node{Element: &frame.Element{Name: name, Nodes: nodes}}
}

func described(href string, properties ...frame.Node) frame.Node {
	return element("response", "", element("href", href), element("propstat", "", element("prop", "", properties...)))
}

func TestOf(t *testing.T) {
	root := element("multistatus", "",
		described("/d/", element("resourcetype", "", element("collection", ""))),
		frame.Node{Text: "\n"},
		described("/d/a%20b", element("getcontentlength", "7"), element("getlastmodified", "Thu, 01 Jan 1970 00:00:05 GMT")),
		described("/d/%E4", element("getcontentlength", "x"), element("getlastmodified", "yesterday")),
	).Element
	self, members, ok := Of(frame.Response{Status: 207, Root: root})
	want := []Member{{Href: "/d/a%20b", Length: 7, Modified: time.Unix(5, 0).UTC()}, {Href: "/d/%E4"}}
	if !ok || self != (Member{Href: "/d/", IsCollection: true}) || !reflect.DeepEqual(members, want) {
		t.Errorf("%+v, %+v, %v, want %+v", self, members, ok, want)
	}
	for i, name := range []string{"d", "a b", "\xe4"} {
		if got := append([]Member{self}, members...)[i].Name(); got != name {
			t.Errorf("the name is %q, want %q", got, name)
		}
	}
	for _, response := range []frame.Response{{Status: 207}, {Status: 404, Root: root}, {Status: 207, Root: &frame.Element{}}} {
		if _, _, ok := Of(response); ok {
			t.Errorf("%+v lists members", response)
		}
	}
}
