package davxml

import (
	"errors"
	"io"
	"reflect"
	"strings"
	"testing"
	"testing/iotest"

	"davserve/internal/frame"
)

func parse(document string) (*frame.Element, error) {
	return Parse(strings.NewReader(document), LimitsFor(1<<20))
}

func text(s string) frame.Node {
	return frame.Node{Text: s}
}

func element(e frame.Element) frame.Node {
	return frame.Node{Element: &e}
}

func TestParse(t *testing.T) {
	tests := []struct {
		name, document string
		want           frame.Element
	}{
		{"one element", `<a/>`, frame.Element{Name: "a"}},
		{"a prefix", `<D:a xmlns:D="DAV:"/>`, frame.Element{
			Name: "a", Prefix: "D", Namespace: "DAV:", Attributes: []frame.Attribute{{Name: "xmlns:D", Value: "DAV:"}},
		}},
		{"a default namespace", `<a xmlns="DAV:"><b xmlns=""/></a>`, frame.Element{
			Name: "a", Namespace: "DAV:", Attributes: []frame.Attribute{{Name: "xmlns", Value: "DAV:"}},
			Nodes: []frame.Node{element(frame.Element{Name: "b", Attributes: []frame.Attribute{{Name: "xmlns"}}})},
		}},
		{"a prefix of an outer element", `<p:a xmlns:p="urn:p"><p:b/></p:a>`, frame.Element{
			Name: "a", Prefix: "p", Namespace: "urn:p", Attributes: []frame.Attribute{{Name: "xmlns:p", Value: "urn:p"}},
			Nodes: []frame.Node{element(frame.Element{Name: "b", Prefix: "p", Namespace: "urn:p"})},
		}},
		{"an attribute with a prefix of an outer element", `<a xmlns:p="urn:p"><b p:y="2" p:x="1"/></a>`, frame.Element{
			Name: "a", Attributes: []frame.Attribute{{Name: "xmlns:p", Value: "urn:p"}},
			Nodes: []frame.Node{element(frame.Element{Name: "b", Attributes: []frame.Attribute{
				{Name: "p:x", Value: "1"}, {Name: "p:y", Value: "2"}, {Name: "xmlns:p", Value: "urn:p"},
			}})},
		}},
		{"a prefix that shadows and ends", `<a xmlns:p="1"><p:b xmlns:p="2"/><p:c/></a>`, frame.Element{
			Name: "a", Attributes: []frame.Attribute{{Name: "xmlns:p", Value: "1"}},
			Nodes: []frame.Node{
				element(frame.Element{
					Name: "b", Prefix: "p", Namespace: "2", Attributes: []frame.Attribute{{Name: "xmlns:p", Value: "2"}},
				}),
				element(frame.Element{Name: "c", Prefix: "p", Namespace: "1"}),
			},
		}},
		{"the prefix xml", `<a xml:lang="de" xml:space="preserve"/>`, frame.Element{
			Name: "a", Attributes: []frame.Attribute{
				{Name: "xml:lang", Value: "de"}, {Name: "xml:space", Value: "preserve"},
			},
		}},
		{"order of attributes by bytes", `<a b="1" a="2" B="3" ä="4" a.b="5"/>`, frame.Element{
			Name: "a", Attributes: []frame.Attribute{
				{Name: "B", Value: "3"}, {Name: "a", Value: "2"}, {Name: "a.b", Value: "5"}, {Name: "b", Value: "1"},
				{Name: "ä", Value: "4"},
			},
		}},
		{"text of several parts", "<a> 1<!-- c -->2<?p i?>3<![CDATA[<&]]>&lt;&#x34;&#53;</a>", frame.Element{
			Name: "a", Nodes: []frame.Node{text(" 123<&<45")},
		}},
		{"text between elements", "<a> <b/>\n<b/>\t</a>", frame.Element{Name: "a", Nodes: []frame.Node{
			text(" "), element(frame.Element{Name: "b"}), text("\n"), element(frame.Element{Name: "b"}), text("\t"),
		}}},
		{"empty text", "<a><![CDATA[]]><!----></a>", frame.Element{Name: "a"}},
		{"ends of lines (XML 1.0, section 2.11)", "<a>1\r\n2\r3\n4&#13;\n5<![CDATA[\r\n]]></a>", frame.Element{
			Name: "a", Nodes: []frame.Node{text("1\n2\n3\n4\r\n5\n")},
		}},
		{"values (XML 1.0, section 3.3.3)", "<a b='1\t2\n3\r\n4\r5\r\r\n6&#9;7&#10;8&#13;\n9'/>", frame.Element{
			Name: "a", Attributes: []frame.Attribute{{Name: "b", Value: "1 2 3 4 5  6\t7\n8\r 9"}},
		}},
		{"a value with any character", `<a b="]]>'&gt;&quot;&#xFFFD;>#xD800;>&amp;#55296;"/>`, frame.Element{
			Name: "a", Attributes: []frame.Attribute{{Name: "b", Value: "]]>'>\"\uFFFD>#xD800;>&#55296;"}},
		}},
		{"characters of every plane", "<a>\u00e9\u2028\U0001F600&#x10FFFF;&#x1f600;</a>", frame.Element{
			Name: "a", Nodes: []frame.Node{text("\u00e9\u2028\U0001F600\U0010FFFF\U0001F600")},
		}},
		{"names that begin with xmlns", `<a xmlnsp="1" xmlns.p="2" xmlns-="3"/>`, frame.Element{
			Name: "a", Attributes: []frame.Attribute{
				{Name: "xmlns-", Value: "3"}, {Name: "xmlns.p", Value: "2"}, {Name: "xmlnsp", Value: "1"},
			},
		}},
		{"lines in comments and instructions", "<a><!--\r\n\t--><?p \r\n\t?></a>", frame.Element{Name: "a"}},
		{"around the root", "\xEF\xBB\xBF<?xml version='1.0' encoding='UTF-8' standalone='no' ?>\r\n" +
			"<!-- c -->\t<?p?><a/> \n<?p i?><!---->", frame.Element{Name: "a"}},
		{"the encoding US-ASCII", `<?xml version="1.0" encoding="US-ascii"?><a>&#xe9;</a>`, frame.Element{
			Name: "a", Nodes: []frame.Node{text("\u00e9")},
		}},
		{"the encoding in lower case", `<?xml version = "1.0" encoding = 'utf-8'?><a/>`, frame.Element{Name: "a"}},
		{"the prefix xml declared", `<a xmlns:xml="http://www.w3.org/XML/1998/namespace" xml:a=""/>`, frame.Element{
			Name: "a", Attributes: []frame.Attribute{
				{Name: "xml:a"}, {Name: "xmlns:xml", Value: "http://www.w3.org/XML/1998/namespace"},
			},
		}},
		{"white space in tags", "<a\tb\n=\r'1'\n ><c\n/></a\n>", frame.Element{
			Name: "a", Attributes: []frame.Attribute{{Name: "b", Value: "1"}},
			Nodes: []frame.Node{element(frame.Element{Name: "c"})},
		}},
		{"one local name in two namespaces", `<a x="1" p:x="2" xmlns:p="urn:p" xmlns="urn:p"/>`, frame.Element{
			Name: "a", Namespace: "urn:p", Attributes: []frame.Attribute{
				{Name: "p:x", Value: "2"}, {Name: "x", Value: "1"}, {Name: "xmlns", Value: "urn:p"},
				{Name: "xmlns:p", Value: "urn:p"},
			},
		}},
		{"entities that look like tags", `<a b="&lt;c>">&lt;c>&amp;lt;</a>`, frame.Element{
			Name: "a", Attributes: []frame.Attribute{{Name: "b", Value: "<c>"}}, Nodes: []frame.Node{text("<c>&lt;")},
		}},
	}
	for _, test := range tests {
		t.Run(test.name, func(t *testing.T) {
			got, err := parse(test.document)
			if err != nil {
				t.Fatal(err)
			}
			if !reflect.DeepEqual(got, &test.want) {
				t.Errorf("got %s, want %s", Append(nil, got), Append(nil, &test.want))
			}
			byByte, err := Parse(iotest.OneByteReader(strings.NewReader(test.document)), LimitsFor(1<<20))
			if err != nil || !reflect.DeepEqual(byByte, got) {
				t.Errorf("byte by byte: %v, %v", byByte, err)
			}
		})
	}
}

func TestStoredKeepsLanguage(t *testing.T) {
	const begin, end = `<propertyupdate xmlns="DAV:"`, `</propertyupdate>`
	tests := []struct{ name, document, want string }{
		{"on propertyupdate", begin + ` xml:lang="de"><set><prop><p/></prop></set>` + end, "de"},
		{"on set", begin + ` xml:lang="de"><set xml:lang="fr"><prop><p/></prop></set>` + end, "fr"},
		{"on prop", begin + `><set><prop xml:lang="fr"><p/></prop></set>` + end, "fr"},
		{"its own", begin + ` xml:lang="de"><set><prop><p xml:lang="fr"/></prop></set>` + end, "fr"},
		{"its own, empty", begin + ` xml:lang="de"><set><prop><p xml:lang=""/></prop></set>` + end, ""},
		{"of another namespace", begin + ` xml:lang="de"><set><prop><p xmlns=""/></prop></set>` + end, "de"},
		{"none", begin + `><set><prop><p/></prop></set>` + end, "-"},
		{"ended before", begin + `><set xml:lang="de"/><set><prop><q xml:lang="de"/><p/></prop></set>` + end, "-"},
		{"undone", begin + ` xml:lang="de"><set xml:lang=""><prop><p/></prop></set>` + end, "-"},
		{"inside a property", begin + ` xml:lang="de"><set><prop><q><p/></q></prop></set>` + end, "-"},
		{"remove", begin + ` xml:lang="de"><remove><prop><p/></prop></remove>` + end, "-"},
		{"owner", `<lockinfo xmlns="DAV:" xml:lang="de"><owner/></lockinfo>`, "de"},
		{"its own on owner", `<lockinfo xmlns="DAV:" xml:lang="de"><owner xml:lang="fr"/></lockinfo>`, "fr"},
		{"inside the owner", `<lockinfo xmlns="DAV:" xml:lang="de"><owner><p/></owner></lockinfo>`, "-"},
		{"another owner", `<a xmlns="DAV:" xml:lang="de"><owner/></a>`, "-"},
		{"an owner of no namespace", `<lockinfo xmlns="DAV:" xml:lang="de"><owner xmlns=""/></lockinfo>`, "-"},
		{"beside the owner", `<lockinfo xmlns="DAV:" xml:lang="de"><p/><owner/></lockinfo>`, "-"},
		{"another root", `<update xmlns="DAV:" xml:lang="de"><set><prop><p/></prop></set></update>`, "-"},
		{"no namespace", `<propertyupdate xml:lang="de"><set><prop><p/></prop></set></propertyupdate>`, "-"},
		{"deeper", `<a xml:lang="de">` + begin + `><set><prop><p/></prop></set>` + end + `</a>`, "-"},
	}
	for _, test := range tests {
		t.Run(test.name, func(t *testing.T) {
			root, err := parse(test.document)
			if err != nil {
				t.Fatal(err)
			}
			got := "-"
			p := child(root, "p")
			if p == nil {
				p = child(root, "owner")
			}
			for _, a := range p.Attributes {
				if a.Name == "xml:lang" {
					got = a.Value
				}
			}
			if got != test.want {
				t.Errorf("got %q, want %q", got, test.want)
			}
		})
	}
}

func TestErrorOfReader(t *testing.T) {
	gone := errors.New("the client has gone")
	const document = `<a b="c>">t&lt;&#65;<![CDATA[x]]><!-- c --><?p i?><d/></a> `
	for length := 0; length <= len(document); length++ {
		// The second reader returns the error with the last bytes.
		first := io.MultiReader(strings.NewReader(document[:length]), iotest.ErrReader(gone))
		for i, r := range []io.Reader{first, iotest.DataErrReader(first)} {
			_, err := Parse(r, LimitsFor(1<<20))
			if !errors.Is(err, gone) || errors.Is(err, ErrMalformed) || errors.Is(err, ErrTooLarge) {
				t.Errorf("reader %d, after %d bytes: %v", i, length, err)
			}
			first = io.MultiReader(strings.NewReader(document[:length]), iotest.ErrReader(gone))
		}
		_, err := parse(document[:length])
		if complete := length >= len(document)-1; complete != (err == nil) || err != nil && !errors.Is(err, ErrMalformed) {
			t.Errorf("the end after %d bytes: %v", length, err)
		}
	}
}
