package davxml

import (
	"encoding/xml"
	"errors"
	"io"
	"strings"
	"unicode"

	"davserve/internal/frame"
)

// A parser builds the tree of a document from the tokens of a decoder.
type parser struct {
	limits     Limits
	in         *input
	decoder    *xml.Decoder
	scope      scope
	root       *frame.Element
	open       []open // the outermost first
	text       []byte // since the last tag
	begun      bool   // whether there was a token
	offset     int64  // of the end of the last token
	elements   int
	attributes int
	tree       int64 // the bytes of the tree in a frame
}

// An open element has had no end tag yet.
type open struct {
	element  *frame.Element
	mark     int    // of the scope around it
	language string // the xml:lang in its scope
}

func newParser(r io.Reader, limits Limits) *parser {
	if limits.Levels > frame.RequestLevels {
		limits.Levels = frame.RequestLevels
	}
	in := newInput(r, limits)
	p := &parser{limits: limits, in: in, decoder: xml.NewDecoder(in), scope: newScope()}
	// The decoder asks for a reader of an encoding before the parser gets the XML declaration, and checks it.
	p.decoder.CharsetReader = func(_ string, r io.Reader) (io.Reader, error) { return r, nil }
	return p
}

// accept adds a token to the tree.
func (p *parser) accept(token xml.Token) error {
	begun, begin := p.begun, p.offset
	p.begun, p.offset = true, p.decoder.InputOffset()
	switch t := token.(type) {
	case xml.StartElement:
		return p.start(t)
	case xml.EndElement:
		return p.finish(t)
	case xml.CharData:
		return p.characters(t)
	case xml.Comment:
		if !areCharacters(t) {
			return p.malformed("a comment has bytes that are no characters")
		}
	case xml.ProcInst:
		if t.Target == "xml" && !begun {
			return p.declaration(string(t.Inst))
		}
		return p.instruction(t, p.offset-begin)
	case xml.Directive:
		return p.malformed("there is a document type declaration")
	}
	return nil
}

// start adds an element to the innermost open element, and opens it.
func (p *parser) start(t xml.StartElement) error {
	if len(p.open) == 0 && p.root != nil {
		return p.malformed("there is more than one root element")
	}
	if len(p.open) >= p.limits.Levels {
		return tooMany(int64(p.limits.Levels), "levels")
	}
	p.elements++
	if p.elements > p.limits.Elements {
		return tooMany(int64(p.limits.Elements), "elements")
	}
	if err := p.flush(); err != nil {
		return err
	}
	mark := p.scope.mark()
	e, err := p.element(t)
	if err != nil {
		return err
	}
	language := p.language(e)
	p.attributes += len(e.Attributes)
	if p.attributes > p.limits.Attributes {
		return tooMany(int64(p.limits.Attributes), "attributes")
	}
	if p.root == nil {
		p.root = e
	} else {
		p.add(frame.Node{Element: e})
	}
	p.open = append(p.open, open{element: e, mark: mark, language: language})
	return p.count(elementBytes(e))
}

// finish closes the innermost open element.
func (p *parser) finish(t xml.EndElement) error {
	if len(p.open) == 0 {
		return p.malformed("an end tag has no start tag")
	}
	if err := p.flush(); err != nil {
		return err
	}
	last := p.open[len(p.open)-1]
	if last.element.Prefix != t.Name.Space || last.element.Name != t.Name.Local {
		return p.malformed("the names in a start tag and its end tag differ")
	}
	p.scope.restore(last.mark)
	p.open = p.open[:len(p.open)-1]
	return nil
}

// characters adds to the text. Outside the root element, the input has refused everything else than white space and
// CDATA sections.
func (p *parser) characters(text []byte) error {
	if len(p.open) > 0 {
		p.text = append(p.text, text...)
		return nil
	}
	if p.in.place == inOther {
		return p.malformed("there is a CDATA section outside the root element")
	}
	return nil
}

// flush adds the text to the tree.
func (p *parser) flush() error {
	if len(p.text) == 0 {
		return nil
	}
	p.add(frame.Node{Text: string(p.text)})
	bytes := textBytes(len(p.text))
	p.text = p.text[:0]
	return p.count(bytes)
}

// add adds a node to the innermost open element.
func (p *parser) add(node frame.Node) {
	e := p.open[len(p.open)-1].element
	e.Nodes = append(e.Nodes, node)
}

// end returns the root element at the end of the body.
func (p *parser) end() (*frame.Element, error) {
	if p.root == nil {
		return nil, p.malformed("there is no element")
	}
	if len(p.open) > 0 {
		return nil, p.malformed("an element has no end tag")
	}
	return p.root, nil
}

// failure returns the error of Parse for an error of the decoder.
func (p *parser) failure(err error) error {
	if p.in.err != nil && p.in.err != io.EOF {
		return p.in.err
	}
	why := strings.TrimPrefix(err.Error(), "xml: ")
	var syntax *xml.SyntaxError
	if errors.As(err, &syntax) {
		why = syntax.Msg
	}
	return p.malformed(printable(why))
}

func (p *parser) malformed(why string) error {
	return malformed(p.in.line, why)
}

// printable returns the beginning of a message that may have bytes of the body.
func printable(message string) string {
	const most = 100
	if len(message) > most {
		message = message[:most] + "..."
	}
	return strings.Map(func(c rune) rune {
		if !unicode.IsPrint(c) {
			return unicode.ReplacementChar
		}
		return c
	}, message)
}

// count adds to the bytes of the tree.
func (p *parser) count(bytes int64) error {
	p.tree += bytes
	if p.tree > p.limits.Tree {
		return tooMany(p.limits.Tree, "bytes in a frame")
	}
	return nil
}

// elementBytes returns how many bytes an element without its nodes has in a frame: two bytes around it, its name, two
// optional strings and a list of pairs of strings.
func elementBytes(e *frame.Element) int64 {
	const number = 8
	bytes := 2 + number + len(e.Name) + 1 + 1 + number
	for _, s := range []string{e.Prefix, e.Namespace} {
		if s != "" {
			bytes += number + len(s)
		}
	}
	for _, a := range e.Attributes {
		bytes += number + len(a.Name) + number + len(a.Value)
	}
	return int64(bytes)
}

// textBytes returns how many bytes a node of text has in a frame.
func textBytes(length int) int64 {
	return 1 + 8 + int64(length)
}
