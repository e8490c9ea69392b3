package davxml

import (
	"encoding/xml"
	"strings"
	"unicode/utf8"
)

const spaces = " \t\r\n"

// declaration accepts the content of an XML declaration (XML 1.0, section 2.8).
func (p *parser) declaration(content string) error {
	rest := " " + content // the decoder has dropped the white space
	version, rest, ok := pseudoAttribute(rest, "version")
	if !ok || version != "1.0" {
		return p.malformed("the XML declaration does not say version 1.0")
	}
	encoding, rest, ok := pseudoAttribute(rest, "encoding")
	if ok {
		switch strings.ToLower(encoding) {
		case "utf-8":
		case "us-ascii":
			p.in.ascii = true
		default:
			return p.malformed("the encoding is neither UTF-8 nor US-ASCII")
		}
	}
	standalone, rest, ok := pseudoAttribute(rest, "standalone")
	if ok && standalone != "yes" && standalone != "no" || strings.Trim(rest, spaces) != "" {
		return p.malformed("the XML declaration is malformed")
	}
	return nil
}

// pseudoAttribute returns the value of a part of an XML declaration, which begins with white space, and the text after
// it. If the text does not begin with this part, ok is false and rest is the text.
func pseudoAttribute(text, name string) (value, rest string, ok bool) {
	part := strings.TrimLeft(text, spaces)
	if len(part) == len(text) || !strings.HasPrefix(part, name) {
		return "", text, false
	}
	part = strings.TrimLeft(part[len(name):], spaces)
	if !strings.HasPrefix(part, "=") {
		return "", text, false
	}
	part = strings.TrimLeft(part[1:], spaces)
	if part == "" || part[0] != '"' && part[0] != '\'' {
		return "", text, false
	}
	value, rest, ok = strings.Cut(part[1:], part[:1])
	if !ok {
		return "", text, false
	}
	return value, rest, true
}

// instruction checks a processing instruction of so many bytes.
func (p *parser) instruction(t xml.ProcInst, bytes int64) error {
	unspaced := len("<?") + len(t.Target) + len(t.Inst) + len("?>")
	switch {
	case strings.EqualFold(t.Target, "xml"):
		return p.malformed("an XML declaration is not at the beginning")
	case strings.Contains(t.Target, ":"):
		return p.malformed("the target of a processing instruction has a colon")
	case len(t.Inst) > 0 && bytes == int64(unspaced):
		return p.malformed("a processing instruction has no white space after its target")
	case !areCharacters(t.Inst):
		return p.malformed("a processing instruction has bytes that are no characters")
	}
	return nil
}

// areCharacters returns whether the bytes are characters that a document may have.
func areCharacters(b []byte) bool {
	for len(b) > 0 {
		c, size := utf8.DecodeRune(b)
		if c == utf8.RuneError && size == 1 || !isCharacter(c) {
			return false
		}
		b = b[size:]
	}
	return true
}

// isCharacter returns whether a document may have the character (XML 1.0, section 2.2). It is no surrogate.
func isCharacter(c rune) bool {
	return c >= 0x20 && c != 0xFFFE && c != 0xFFFF || c == '\t' || c == '\n' || c == '\r'
}
