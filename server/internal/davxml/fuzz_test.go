package davxml

import (
	"encoding/xml"
	"errors"
	"reflect"
	"strings"
	"testing"
	"unicode/utf8"

	"davserve/internal/frame"
)

// FuzzParse parses any bytes. What Parse accepts is within the limits, means what encoding/xml reads, and is the same
// after Append and Parse, as a whole and each element alone.
func FuzzParse(f *testing.F) {
	for _, value := range values {
		f.Add([]byte(strings.ReplaceAll(propertyUpdate, "{}", value)))
		f.Add([]byte(strings.ReplaceAll(value, "o:", "")))
	}
	for _, test := range malformedDocuments {
		f.Add([]byte(test.document))
	}
	f.Add([]byte(`<p:a xmlns:p="urn:p" xmlns:q="urn:q" xmlns:r="urn:p" q:x="1" r:x="2"><q:b/></p:a>`))
	f.Add([]byte(`<lockinfo xmlns="DAV:" xml:lang="de"><owner xmlns:D="urn:x" D:a="1"/></lockinfo>`))
	f.Add([]byte(`<propertyupdate xmlns="DAV:" xml:lang="de"><set><prop><v/></prop></set></propertyupdate>`))
	limits := Limits{Bytes: 1000, Levels: 10, Elements: 50, Attributes: 50, Tree: 4000}
	f.Fuzz(func(t *testing.T, document []byte) {
		root, err := Parse(strings.NewReader(string(document)), limits)
		if err != nil {
			if errors.Is(err, ErrMalformed) == errors.Is(err, ErrTooLarge) || root != nil || !utf8.ValidString(err.Error()) {
				t.Fatalf("got %v, %v", root, err)
			}
			return
		}
		if len(document) > 1000 {
			t.Fatal("too many bytes")
		}
		checkLimits(t, root, limits)
		checkAgain(t, root)
		checkMeaning(t, string(document), root)
		forEach(root, func(e *frame.Element) {
			checkAlone(t, e)
			checkPrefix(t, e)
		})
	})
}

// FuzzAppend appends any text and any value. Parse gets them back, with U+FFFD for what is no character.
func FuzzAppend(f *testing.F) {
	f.Add("&<>\"'\t\n\r\r\n ]]>", "\x00\x01\x7f\u0085\u2028\uFEFF\uFFFD\uFFFE\uFFFF\U0001F600\U0010FFFF")
	f.Add("\xff\xc3\xed\xa0\x80\xf4\x90\x80\x80", "&lt;&#38;#38;")
	f.Fuzz(func(t *testing.T, content, value string) {
		root := &frame.Element{
			Name: "a", Attributes: []frame.Attribute{{Name: "b", Value: value}}, Nodes: []frame.Node{text(content)},
		}
		var written strings.Builder
		if err := Write(&written, root); err != nil || written.String() != string(Append(nil, root)) {
			t.Fatalf("Write and Append differ: %v", err)
		}
		root.Attributes[0].Value = onlyCharacters(value)
		root.Nodes[0].Text = onlyCharacters(content)
		if content == "" {
			root.Nodes = nil
		}
		got, err := Parse(strings.NewReader(written.String()), LimitsFor(1<<30))
		if err != nil || !reflect.DeepEqual(got, root) {
			t.Errorf("got %v, %v, want %v", got, err, root)
		}
	})
}

// onlyCharacters replaces what is not a Char of XML 1.0 by U+FFFD.
func onlyCharacters(s string) string {
	var b strings.Builder
	for _, c := range s {
		switch {
		case c == 0x9, c == 0xA, c == 0xD, 0x20 <= c && c <= 0xD7FF, 0xE000 <= c && c <= 0xFFFD, 0x10000 <= c:
			b.WriteRune(c)
		default:
			b.WriteRune('\uFFFD')
		}
	}
	return b.String()
}

func forEach(e *frame.Element, do func(*frame.Element)) {
	do(e)
	for _, node := range e.Nodes {
		if node.Element != nil {
			forEach(node.Element, do)
		}
	}
}

func levels(e *frame.Element) int {
	most := 0
	for _, node := range e.Nodes {
		if node.Element != nil {
			if n := levels(node.Element); n > most {
				most = n
			}
		}
	}
	return most + 1
}

func checkLimits(t *testing.T, root *frame.Element, limits Limits) {
	t.Helper()
	elements, attributes := 0, 0
	forEach(root, func(e *frame.Element) {
		elements++
		attributes += len(e.Attributes)
		for i, node := range e.Nodes {
			if node.Element == nil && (node.Text == "" || i > 0 && e.Nodes[i-1].Element == nil) {
				t.Errorf("text of %s is empty or divided", e.Name)
			}
			if !utf8.ValidString(node.Text) {
				t.Errorf("text of %s is not UTF-8", e.Name)
			}
		}
	})
	if elements > limits.Elements || attributes > limits.Attributes || levels(root) > limits.Levels ||
		frameBytes(root) > limits.Tree {
		t.Errorf("%d elements, %d attributes, %d levels, %d bytes", elements, attributes, levels(root), frameBytes(root))
	}
}

// checkAgain checks that the tree comes back, with its prefixes and declarations.
func checkAgain(t *testing.T, root *frame.Element) {
	t.Helper()
	again, err := parse(string(Append(nil, root)))
	if err != nil || !reflect.DeepEqual(again, root) {
		t.Errorf("got %v, %v, from %s", again, err, Append(nil, root))
	}
}

// checkPrefix checks that an element has the same name and content if its prefix is one that its attributes declare, as
// davd changes the prefix of the owner of a lock.
func checkPrefix(t *testing.T, e *frame.Element) {
	t.Helper()
	for _, a := range e.Attributes {
		prefix := strings.TrimPrefix(a.Name, "xmlns:")
		if prefix == a.Name || prefix == "xml" || e.Namespace == "" || e.Namespace == xmlNamespace {
			continue
		}
		changed := *e
		changed.Prefix = prefix
		document := string(Append(nil, inMultistatus(&changed)))
		root, err := parse(document)
		if err != nil {
			t.Fatalf("%v in %s", err, document)
		}
		got, err := treeOf(child(root, "prop").Nodes[0].Element)
		if err != nil {
			t.Fatal(err)
		}
		want, err := treeOf(e)
		if err != nil {
			t.Fatal(err)
		}
		if got.name != want.name || !reflect.DeepEqual(got.nodes, want.nodes) {
			t.Errorf("got %v, want %v, from %s", got, want, document)
		}
		for name, value := range got.attributes {
			if want.attributes[name] != value {
				t.Errorf("got %v, want %v, from %s", got, want, document)
			}
		}
	}
}

// checkMeaning compares the tree with what encoding/xml reads.
func checkMeaning(t *testing.T, document string, root *frame.Element) {
	t.Helper()
	if strings.Contains(strings.ToLower(document), "us-ascii") || strings.Contains(document, "]]>") || isAmbiguous(root) {
		return // encoding/xml needs help with the encoding, and refuses "]]>" in values
	}
	want, err := readTree(document)
	if err != nil {
		t.Fatal(err)
	}
	got, err := treeOf(root)
	if err != nil {
		t.Fatal(err)
	}
	spaceValues(want)
	addLanguages(want)
	spaceValues(got)
	if !sameTree(got, want) {
		t.Errorf("got %v, want %v", got, want)
	}
}

// isAmbiguous returns whether encoding/xml takes a name or a namespace in the element for xmlns.
func isAmbiguous(root *frame.Element) bool {
	ambiguous := false
	forEach(root, func(e *frame.Element) {
		ambiguous = ambiguous || e.Prefix == "" && e.Name == "xmlns"
		for _, a := range e.Attributes {
			ambiguous = ambiguous || strings.HasPrefix(a.Name, "xmlns") && a.Value == "xmlns"
		}
	})
	return ambiguous
}

// spaceValues makes all white space in values and namespaces spaces. encoding/xml does not distinguish what a reference
// stands for.
func spaceValues(t *tree) {
	spaced := strings.NewReplacer("\t", " ", "\n", " ", "\r", " ").Replace
	t.name.Space = spaced(t.name.Space)
	attributes := map[xml.Name]string{}
	for name, value := range t.attributes {
		attributes[xml.Name{Space: spaced(name.Space), Local: name.Local}] = spaced(value)
	}
	t.attributes = attributes
	for _, inner := range t.elements() {
		spaceValues(inner)
	}
}

// languageName is the name of xml:lang.
var languageName = xml.Name{Space: "http://www.w3.org/XML/1998/namespace", Local: "lang"}

// addLanguages adds the xml:lang in scope to each property that a PROPPATCH sets, and to the owner of a LOCK.
func addLanguages(root *tree) {
	language := root.attributes[languageName]
	for _, inner := range root.elements() {
		switch {
		case root.isDAV("lockinfo") && inner.isDAV("owner"):
			inner.addLanguage(language)
		case root.isDAV("propertyupdate") && inner.isDAV("set"):
			for _, prop := range inner.elements() {
				if !prop.isDAV("prop") {
					continue
				}
				for _, property := range prop.elements() {
					property.addLanguage(prop.language(inner.language(language)))
				}
			}
		}
	}
}

func (t *tree) isDAV(name string) bool {
	return t.name == xml.Name{Space: "DAV:", Local: name}
}

// language returns the xml:lang in the scope of the element, inside that of another.
func (t *tree) language(outer string) string {
	if own, ok := t.attributes[languageName]; ok {
		return own
	}
	return outer
}

func (t *tree) addLanguage(outer string) {
	if language := t.language(outer); language != "" {
		t.attributes[languageName] = language
	}
}
