package davxml

import (
	"errors"
	"fmt"
	"io"
	"strings"
	"testing"

	"davserve/internal/frame"
)

// malformedDocuments has documents that XML 1.0 or Namespaces in XML 1.0 does not allow, or that Parse does not accept.
var malformedDocuments = []struct{ name, document string }{
	{"nothing", ""},
	{"white space", " \n"},
	{"a comment", "<!-- a -->"},
	{"no end tag", "<a>"},
	{"no end tag inside", "<a><b></a>"},
	{"crossed tags", "<a><b></a></b>"},
	{"an end tag too many", "<a/></a>"},
	{"an end tag first", "</a>"},
	{"an end tag in another case", "<a></A>"},
	{"an end tag with another prefix", `<p:a xmlns:p="1" xmlns:q="1"></q:a>`},
	{"an end tag without the prefix", `<p:a xmlns:p="1" xmlns="1"></a>`},
	{"an end tag with attributes", `<a></a b="1">`},
	{"an end tag with colons", `<a></a:>`},
	{"half a tag", "<a"},
	{"half an end tag", "<a></a"},
	{"half a value", `<a b="`},
	{"half a comment", "<a/><!-- "},
	{"half a CDATA section", "<a><![CDATA[ ]]"},
	{"two roots", "<a/><b/>"},
	{"two open roots", "<a></a><a></a>"},
	{"text before", "x<a/>"},
	{"text after", "<a/>x"},
	{"zero after", "<a/>\x00"},
	{"a no-break space after", "<a/>\u00a0"},
	{"a reference to a space after", "<a/>&#32;"},
	{"a CDATA section after", "<a/><![CDATA[ ]]>"},
	{"a CDATA section before", "<![CDATA[]]><a/>"},
	{"two byte order marks", "\uFEFF\uFEFF<a/>"},
	{"a late byte order mark", " \uFEFF<a/>"},
	{"half a byte order mark", "\xEF<a/>"},
	{"half a byte order mark and a space", "\xEF\xBB <a/>"},
	{"a document type", "<!DOCTYPE a><a/>"},
	{"a document type with an entity", `<!DOCTYPE a [<!ENTITY e "x">]><a>&e;</a>`},
	{"an external entity", `<!DOCTYPE a [<!ENTITY e SYSTEM "file:///etc/passwd">]><a>&e;</a>`},
	{"a billion laughs", `<!DOCTYPE l [<!ENTITY a "ha"><!ENTITY b "&a;&a;&a;&a;&a;&a;&a;&a;&a;&a;">` +
		`<!ENTITY c "&b;&b;&b;&b;&b;&b;&b;&b;&b;&b;">]><l>&c;</l>`},
	{"a declaration of an element inside", "<a><!ELEMENT a ANY></a>"},
	{"an unknown entity", "<a>&nbsp;</a>"},
	{"an unknown entity in a value", "<a b='&nbsp;'/>"},
	{"an ampersand", "<a>a & b</a>"},
	{"an entity without semicolon", "<a>&lt</a>"},
	{"a reference without digits", "<a>&#;</a>"},
	{"a reference with X", "<a>&#X41;</a>"},
	{"a reference to zero", "<a>&#0;</a>"},
	{"a reference to a control character", "<a>&#1;</a>"},
	{"a reference to U+FFFE", "<a>&#xFFFE;</a>"},
	{"a reference to a surrogate", "<a>&#xD800;</a>"},
	{"a reference to a surrogate with zeros", "<a>&#x0000000000dFfF;</a>"},
	{"a decimal reference to a surrogate", "<a>&#55296;</a>"},
	{"a reference to a surrogate in a value", "<a b='&#xDBFF;'/>"},
	{"a reference beyond Unicode", "<a>&#x110000;</a>"},
	{"a reference beyond 64 bits", "<a>&#x1000000000000000041;</a>"},
	{"]]> in text", "<a>]]></a>"},
	{"< in a value", "<a b='<'/>"},
	{"no quotes", "<a b=1/>"},
	{"no value", "<a b/>"},
	{"no white space before an attribute", `<a b="1"c="2"/>`},
	{"no white space before a declaration", `<a b=""xmlns:c="2"/>`},
	{"an attribute twice", `<a b="1" c="" b="2"/>`},
	{"a declaration twice", `<a xmlns:p="1" xmlns:p="1"/>`},
	{"a default namespace twice", `<a xmlns="1" xmlns="1"/>`},
	{"one expanded name twice", `<a xmlns:p="1" xmlns:q="1" p:x="" q:x=""/>`},
	{"one expanded name twice, declared outside", `<b xmlns:p="1"><a xmlns:q="1" q:x="" r="" p:x=""/></b>`},
	{"an undeclared prefix", "<p:a/>"},
	{"an undeclared prefix of an attribute", "<a p:b='1'/>"},
	{"a prefix that ended", `<a><b xmlns:p="1"/><p:c/></a>`},
	{"a prefix that is declared inside", `<p:a><b xmlns:p="1"/></p:a>`},
	{"a prefix undeclared", `<a xmlns:p="1"><b xmlns:p=""/></a>`},
	{"the prefix xmlns declared", `<a xmlns:xmlns="http://www.w3.org/2000/xmlns/"/>`},
	{"the prefix xmlns declared otherwise", `<a xmlns:xmlns="urn:x"/>`},
	{"the prefix xmlns on an element", `<xmlns:a/>`},
	{"the namespace of xmlns", `<a xmlns:p="http://www.w3.org/2000/xmlns/"/>`},
	{"the namespace of xmlns as the default", `<a xmlns="http://www.w3.org/2000/xmlns/"/>`},
	{"the prefix xml declared otherwise", `<a xmlns:xml="urn:x"/>`},
	{"the prefix xml undeclared", `<a xmlns:xml=""/>`},
	{"the namespace of xml under another prefix", `<a xmlns:p="http://www.w3.org/XML/1998/namespace"/>`},
	{"the namespace of xml as the default", `<a xmlns="http://www.w3.org/XML/1998/namespace"/>`},
	{"two colons", `<p:a:b xmlns:p="1"/>`},
	{"two colons in an attribute", `<a xmlns:p="1" p:b:c=""/>`},
	{"two colons in a declaration", `<a xmlns:p:q="1"/>`},
	{"an empty prefix", "<:a/>"},
	{"an empty local name", `<p: xmlns:p="1"/>`},
	{"an empty prefix of an attribute", "<a :b=''/>"},
	{"an empty local name of an attribute", `<a p:="" xmlns:p="1"/>`},
	{"an empty prefix declared", `<a xmlns:="1"/>`},
	{"a local name that begins with a digit", `<p:1 xmlns:p="1"/>`},
	{"a local name that begins with a mark", "<p:\u0300 xmlns:p='1'/>"},
	{"a declared prefix that begins with a hyphen", `<a xmlns:-p="1"/>`},
	{"a name that begins with a digit", "<1/>"},
	{"a name with an emoji", "<a\U0001F600/>"},
	{"a name that is not UTF-8", "<a\xff/>"},
	{"space before the name", "< a/>"},
	{"space in an empty tag", "<a/ >"},
	{"no name", "<>"},
	{"no name at all", "<a></>"},
	{"text that is not UTF-8", "<a>\xff</a>"},
	{"half a character", "<a>\xc3</a>"},
	{"a character that is too long", "<a>\xc0\xaf</a>"},
	{"a surrogate in UTF-8", "<a>\xed\xa0\x80</a>"},
	{"a value that is not UTF-8", "<a b='\xe9'/>"},
	{"a control character", "<a>\x01</a>"},
	{"a control character in a value", "<a b='\x0c'/>"},
	{"U+FFFF", "<a>\uFFFF</a>"},
	{"a control character in a comment", "<a><!-- \x01 --></a>"},
	{"a comment that is not UTF-8", "<a><!-- \xff --></a>"},
	{"two hyphens in a comment", "<a><!-- -- --></a>"},
	{"a comment that ends in three hyphens", "<a><!-- ---></a>"},
	{"a processing instruction that is not UTF-8", "<a><?p \xff?></a>"},
	{"a processing instruction without white space", "<a><?p+x?></a>"},
	{"a processing instruction without a target", "<a><? p?></a>"},
	{"a processing instruction with a colon", "<a><?p:q x?></a>"},
	{"a late XML declaration", ` <?xml version="1.0"?><a/>`},
	{"an XML declaration inside", `<a><?xml version="1.0"?></a>`},
	{"an XML declaration after the root", `<a/><?xml version="1.0"?>`},
	{"two XML declarations", `<?xml version="1.0"?><?xml version="1.0"?><a/>`},
	{"an XML declaration in upper case", `<?XML version="1.0"?><a/>`},
	{"an empty XML declaration", `<?xml?><a/>`},
	{"no version", `<?xml encoding="utf-8"?><a/>`},
	{"version 1.1", `<?xml version="1.1"?><a/>`},
	{"version 1.1 with spaces", `<?xml version = "1.1"?><a/>`},
	{"no quotes in the XML declaration", `<?xml version=1.0?><a/>`},
	{"no second quote in the XML declaration", `<?xml version="1.0?><a/>`},
	{"no white space in the XML declaration", `<?xml version="1.0"encoding="utf-8"?><a/>`},
	{"the XML declaration in another order", `<?xml version="1.0" standalone="yes" encoding="utf-8"?><a/>`},
	{"more in the XML declaration", `<?xml version="1.0" encoding="utf-8" a="b"?><a/>`},
	{"standalone maybe", `<?xml version="1.0" standalone="maybe"?><a/>`},
	{"the encoding Latin-1", `<?xml version="1.0" encoding="ISO-8859-1"?><a/>`},
	{"the encoding UTF-16", `<?xml version="1.0" encoding="utf-16"?><a/>`},
	{"the encoding UTF-16 with spaces", `<?xml version="1.0" encoding = "utf-16"?><a/>`},
	{"the encoding UTF-7", `<?xml version="1.0" encoding="utf-7"?><a>+ADw-</a>`},
	{"no encoding", `<?xml version="1.0" encoding=""?><a/>`},
	{"US-ASCII with another byte", `<?xml version="1.0" encoding="us-ascii"?><a>` + "\u00e9</a>"},
	{"UTF-16, the high byte first", "\xFE\xFF\x00<\x00a\x00/\x00>"},
	{"UTF-16, the low byte first", "\xFF\xFE<\x00a\x00/\x00>\x00"},
	{"UTF-16 without a mark", "<\x00a\x00/\x00>\x00"},
	{"UTF-32", "\xFF\xFE\x00\x00<\x00\x00\x00a\x00\x00\x00/\x00\x00\x00>\x00\x00\x00"},
}

func TestMalformed(t *testing.T) {
	for _, test := range malformedDocuments {
		t.Run(test.name, func(t *testing.T) {
			got, err := parse(test.document)
			if !errors.Is(err, ErrMalformed) || errors.Is(err, ErrTooLarge) || got != nil {
				t.Errorf("got %v, %v", got, err)
			}
		})
	}
}

func TestErrorHasLine(t *testing.T) {
	tests := []struct{ document, want string }{
		{"<a>\n<b>\r\n</a>", "malformed XML: line 3: the names in a start tag and its end tag differ"},
		{"<a\n\n b='\n'>&x;</a>", "malformed XML: line 4: invalid character entity &x;"},
		{"<a/>\nx", "malformed XML: line 2: there is text outside the root element"},
		{"<a\x80\u0085\u202e/>", "malformed XML: line 1: invalid XML name: a\uFFFD\uFFFD\uFFFD"},
	}
	for _, test := range tests {
		if _, err := parse(test.document); err == nil || err.Error() != test.want {
			t.Errorf("%q: got %v, want %s", test.document, err, test.want)
		}
	}
	_, err := parse("<" + strings.Repeat("\u00d7", 1000) + "/>")
	if !errors.Is(err, ErrMalformed) || len(err.Error()) > 200 {
		t.Errorf("a long name: %v", err)
	}
}

func TestLimits(t *testing.T) {
	nested := func(levels int) string {
		return strings.Repeat("<a>", levels) + strings.Repeat("</a>", levels)
	}
	limits := Limits{Bytes: 1 << 20, Levels: 1 << 20, Elements: 1000, Attributes: 5, Tree: 100_000}
	declared := `<a xmlns:p="` + strings.Repeat("x", 50_000) + `">`
	const outer = `<a xmlns:p="1" xmlns:q="2">`
	const update = `<propertyupdate xmlns="DAV:" xml:lang="de"><set><prop>`
	tests := []struct {
		name, accepted, refused string
		limits                  Limits
	}{
		{"bytes", "<a/>", "<a/> ", Limits{4, 1, 1, 0, 1000}},
		{"bytes of text", "<a>x</a>", "<a>xx</a>", Limits{8, 1, 1, 0, 1000}},
		{"bytes after the byte order mark", "\uFEFF<a/>", "\uFEFF <a/>", Limits{7, 1, 1, 0, 1000}},
		{"levels", nested(7), nested(8), Limits{1 << 20, 7, 1000, 0, 1 << 20}},
		{"levels of a frame", nested(frame.RequestLevels), nested(frame.RequestLevels + 1), limits},
		{"no level", "", "<a/>", Limits{4, 0, 1, 0, 1000}},
		{"elements", "<a><b/><c/></a>", "<a><b/><c/><d/></a>", Limits{1 << 20, 9, 3, 0, 1000}},
		{"attributes", "<a b='' c=''><d b='' c='' d=''/></a>", "<a b='' c=''><d b='' c='' d='' e=''/></a>", limits},
		{"added declarations", outer + "<b p:x=''/></a>", outer + "<b p:x='' q:x=''/></a>", limits},
		{"added languages", update + "<p/><p/><p/></prop></set></propertyupdate>",
			update + "<p/><p/><p/><p/></prop></set></propertyupdate>", limits},
		{"repeated declarations", declared + "</a>", declared + "<b p:x=''/></a>", limits},
		{"repeated namespaces", declared + "</a>", declared + "<p:b/></a>", limits},
		{"text in a frame", "<a>" + strings.Repeat("x", 99_900) + "</a>",
			"<a>" + strings.Repeat("x", 100_000) + "</a>", limits},
	}
	for _, test := range tests {
		t.Run(test.name, func(t *testing.T) {
			if test.accepted != "" {
				if _, err := Parse(strings.NewReader(test.accepted), test.limits); err != nil {
					t.Errorf("accepted: %v", err)
				}
			}
			got, err := Parse(strings.NewReader(test.refused), test.limits)
			if !errors.Is(err, ErrTooLarge) || errors.Is(err, ErrMalformed) || got != nil {
				t.Errorf("refused: %v, %v", got, err)
			}
		})
	}
}

// frameBytes returns the length of an element as the body of a request, by the grammar of docs/FRAMES.md.
func frameBytes(e *frame.Element) int64 {
	length := func(s string) int64 { return 8 + int64(len(s)) }
	optional := func(s string) int64 {
		if s == "" {
			return 1
		}
		return 1 + length(s)
	}
	total := 1 + length(e.Name) + optional(e.Prefix) + optional(e.Namespace) + 8
	for _, a := range e.Attributes {
		total += length(a.Name) + length(a.Value)
	}
	for _, node := range e.Nodes {
		if node.Element != nil {
			total += frameBytes(node.Element)
		} else {
			total += 1 + length(node.Text)
		}
	}
	return total + 1
}

func TestTreeLimitIsExact(t *testing.T) {
	const document = `<D:a xmlns:D="DAV:" b="c"> <e D:f="">text</e><g xmlns="urn:g"><h/></g></D:a>`
	limits := LimitsFor(1000)
	root, err := Parse(strings.NewReader(document), limits)
	if err != nil {
		t.Fatal(err)
	}
	limits.Tree = frameBytes(root)
	if _, err := Parse(strings.NewReader(document), limits); err != nil {
		t.Errorf("%d bytes: %v", limits.Tree, err)
	}
	limits.Tree--
	if _, err := Parse(strings.NewReader(document), limits); !errors.Is(err, ErrTooLarge) {
		t.Errorf("%d bytes: %v", limits.Tree, err)
	}
}

// An endless reader returns the same bytes again and again, and counts them.
type endless struct {
	bytes string
	read  int
}

func (e *endless) Read(b []byte) (int, error) {
	for i := range b {
		b[i] = e.bytes[(e.read+i)%len(e.bytes)]
	}
	e.read += len(b)
	return len(b), nil
}

func TestEndlessBodies(t *testing.T) {
	const most = 1_000_000
	tests := []struct {
		name, begin, again string
		read               int // at most
	}{
		{"nesting", "", "<a>", 10_000},
		{"nesting of prefixes", "", "<p:a xmlns:p='urn:p'>", 10_000},
		{"elements", "<a>", "<b/>", 100_000},
		{"text", "<a>", "x", most + 1},
		{"white space before", "", " ", most + 1},
		{"white space after", "<a/>", " ", most + 1},
		{"comments", "", "<!-- -->", most + 1},
		{"a comment", "<!--", "x", most + 1},
		{"a processing instruction", "<?", "x", most + 1},
		{"a directive", "<!", "<", most + 1},
		{"a name", "<", "x", most + 1},
		{"a value", "<a b='", "x", most + 1},
		{"a reference", "<a>&#x", "0", most + 1},
		{"an entity", "<a>&", "a", most + 1},
		{"attributes with the same name", "<a", " b='c'", 100_000},
		{"white space in a tag", "<a", "\n", most + 1},
	}
	for _, test := range tests {
		t.Run(test.name, func(t *testing.T) {
			r := &endless{bytes: test.again}
			_, err := Parse(io.MultiReader(strings.NewReader(test.begin), r), LimitsFor(most))
			if !errors.Is(err, ErrTooLarge) {
				t.Errorf("got %v", err)
			}
			if r.read > test.read {
				t.Errorf("%d bytes were read", r.read)
			}
		})
	}
}

func TestManyAttributes(t *testing.T) {
	var b strings.Builder
	b.WriteString("<a")
	for i := 0; i < 1_000_000; i++ {
		fmt.Fprintf(&b, " a%d=''", i)
	}
	b.WriteString("/>")
	document := b.String()
	limits := LimitsFor(int64(len(document)))
	if _, err := Parse(strings.NewReader(document), limits); !errors.Is(err, ErrTooLarge) {
		t.Errorf("got %v", err)
	}
	limits.Attributes = 100_000
	root, err := Parse(strings.NewReader(document[:strings.Index(document, " a100000=")]+"/>"), limits)
	if err != nil || len(root.Attributes) != 100_000 {
		t.Errorf("with a higher limit: %v", err)
	}
}

// TestStartsName compares startsName with the tables of encoding/xml.
func TestStartsName(t *testing.T) {
	for c := rune(0); c <= 0xFFFF; c++ { // encoding/xml allows no other characters in names
		if c == ':' {
			continue
		}
		if _, err := parse("<a" + string(c) + "/>"); err != nil || isSpace(byte(c)) && c < 0x80 || c == '/' {
			continue // not in names
		}
		_, err := parse("<" + string(c) + "/>")
		if want := err == nil; startsName(c) != want {
			t.Errorf("%U: got %v, want %v", c, startsName(c), want)
		}
	}
}
