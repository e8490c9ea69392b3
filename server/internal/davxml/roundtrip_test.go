package davxml

import (
	"reflect"
	"strings"
	"testing"

	"davserve/internal/frame"
)

// values has values of properties. In each, the property is the element v, and the prefix o is bound to urn:outer.
var values = []string{
	`<v xmlns="urn:v"><a xmlns="">t<b xmlns="urn:b" c="1"/></a> tail </v>`,
	`<p:v xmlns:p="urn:v"><p:a p:x="1" y="2"/><q:b xmlns:q="urn:q" q:z="&lt;&quot;&amp;&#10;"/></p:v>`,
	`<v xmlns="urn:v" xml:lang="de">  <a/>  </v>`,
	"<v xmlns='urn:v'><![CDATA[<&]]>&#233;\U0001F600</v>",
	`<D:v xmlns:D="urn:v"><D:a xmlns:D="DAV:"><D:b/></D:a><D:c/></D:v>`,
	`<v xmlns="urn:v"><!-- c -->x<?pi y?>z</v>`,
	`<v xmlns="urn:v"><o:k/><o:l o:m="1"/></v>`,
	`<v>no namespace</v>`,
	"<v xmlns='urn:v'>\r\n\t a\rb&#13;&#10;&#9;</v>",
	`<v/>`,
	`<v></v>`,
	`<v> </v>`,
	`<o:v o:a="1" b="2"/>`,
	`<o:v xmlns:o="urn:shadow" o:a="1"><o:b o:c="2"/></o:v>`,
	`<v xmlns="urn:1"><v xmlns="urn:2"><v xmlns="urn:1"><v xmlns=""><v xmlns="urn:1"/></v></v></v></v>`,
	`<v xmlns=""><a xmlns="urn:a"><b xmlns=""/></a></v>`,
	`<v xmlns="urn:v"><o:a xmlns="urn:a"><b/></o:a><b/></v>`,
	`<p:v xmlns:p="urn:v" xmlns="urn:d"><a/><p:a xmlns=""><a/></p:a></p:v>`,
	`<p:v xmlns:p="urn:1" p:a="1"><p:b xmlns:p="urn:2" p:a="2"><p:c xmlns:p="urn:1" p:a="3"/></p:b>` +
		`<p:d p:a="4"/></p:v>`,
	`<p:v xmlns:p="urn:v" xmlns:q="urn:v"><q:a p:b="1"/><p:a q:b="1"/></p:v>`,
	`<v xml:space="preserve" xml:lang=""> <a xml:space="default"/> </v>`,
	`<v xmlns="DAV:"><href>/a?b=1&amp;c=2</href></v>`,
	`<D:v><D:href>/a</D:href></D:v>`,
	`<v a="&#13;&#9;&#10; '&quot;]]&gt;&#x1F600;"/>`,
	`<v a='"'/>`,
	`<v>]]&gt;<![CDATA[]]]]><![CDATA[>]]></v>`,
	"<v>\u2028\u0085\u00a0\uFEFF\uFFFD</v>",
	"<o:größe xmlns='urn:v'><v o:größe='ß'>ß</v></o:größe>",
	`<v xmlns:xml="http://www.w3.org/XML/1998/namespace" xml:id="a"/>`,
	`<v xmlns="a b&amp;&lt;&quot;&#10;"><w/></v>`,
}

const propertyUpdate = `<?xml version="1.0" encoding="utf-8"?>` +
	`<D:propertyupdate xmlns:D="DAV:" xmlns:o="urn:outer" xmlns:unused="urn:unused">` +
	`<D:set><D:prop>{}</D:prop></D:set></D:propertyupdate>`

// inMultistatus returns a response of davd with a property.
func inMultistatus(property *frame.Element) *frame.Element {
	node := frame.Node{Element: property}
	for _, name := range []string{"prop", "propstat", "response"} {
		node = element(frame.Element{Name: name, Prefix: "D", Nodes: []frame.Node{node, text(" ")}})
	}
	return &frame.Element{
		Name: "multistatus", Prefix: "D", Attributes: []frame.Attribute{{Name: "xmlns:D", Value: "DAV:"}},
		Nodes: []frame.Node{node},
	}
}

// TestValuesComeBack stores and returns each value, and compares what the client gets with what it sent.
func TestValuesComeBack(t *testing.T) {
	for _, value := range values {
		t.Run(value, func(t *testing.T) {
			body := strings.ReplaceAll(propertyUpdate, "{}", value)
			sent, err := readTree(body)
			if err != nil {
				t.Fatal(err)
			}
			root, err := parse(body)
			if err != nil {
				t.Fatal(err)
			}
			document := string(Append(nil, inMultistatus(child(root, "prop").Nodes[0].Element)))
			returned, err := readTree(document)
			if err != nil {
				t.Fatalf("%v in %s", err, document)
			}
			got, want := returned.find("prop").nodes[0].(*tree), sent.find("prop").nodes[0].(*tree)
			if !sameTree(got, want) {
				t.Errorf("got %v, want %v, from %s", got, want, document)
			}
			if dav := returned.find("prop"); dav.name.Space != "DAV:" || dav.nodes[1] != " " {
				t.Errorf("around the property: %v", returned)
			}
		})
	}
}

// TestValuesAgain parses what Append writes for the whole document and for each value alone.
func TestValuesAgain(t *testing.T) {
	for _, value := range values {
		t.Run(value, func(t *testing.T) {
			root, err := parse(strings.ReplaceAll(propertyUpdate, "{}", value))
			if err != nil {
				t.Fatal(err)
			}
			again, err := parse(string(Append(nil, root)))
			if err != nil || !reflect.DeepEqual(again, root) {
				t.Errorf("the document: got %v, %v", again, err)
			}
			checkAlone(t, child(root, "prop").Nodes[0].Element)
		})
	}
}

// checkAlone checks that an element of Parse means the same in a document of its own.
func checkAlone(t *testing.T, e *frame.Element) {
	t.Helper()
	want, err := treeOf(e)
	if err != nil {
		t.Fatal(err)
	}
	document := string(Append(nil, e))
	alone, err := parse(document)
	if err != nil {
		t.Fatalf("%v in %s", err, document)
	}
	got, err := treeOf(alone)
	if err != nil || !sameTree(got, want) {
		t.Errorf("got %v, %v, want %v, from %s", got, err, want, document)
	}
	if isAmbiguous(e) {
		return
	}
	read, err := readTree(document)
	if err != nil || !sameTree(read, want) {
		t.Errorf("encoding/xml reads %v, %v, want %v, from %s", read, err, want, document)
	}
}
