package davxml

import (
	"io"
	"strings"
	"unicode/utf8"

	"davserve/internal/frame"
)

const declaration = `<?xml version="1.0" encoding="utf-8"?>` + "\n"

// Append appends the document of a root element to b, and returns the result. Write says what the document is.
func Append(b []byte, root *frame.Element) []byte {
	w := writer{b: b, scope: newScope()}
	w.document(root)
	return w.b
}

// Write writes the document of a root element to w, in pieces of about 32 KiB. A shorter document is one piece. Write
// stops at the first error of w and returns it.
//
// The document declares the namespace of an element unless its prefix is already bound to it. If an attribute of the
// element binds the prefix to another namespace, Write leaves it out, and with it the attributes that have the prefix.
// An element with a prefix and without a namespace is in the namespace to which its prefix is bound: that is how davd
// returns its own elements. An element with neither is in no namespace.
//
// Names are written as they are. In text and in values, U+FFFD replaces each character that XML 1.0 does not allow and
// each byte that is not UTF-8.
func Write(w io.Writer, root *frame.Element) error {
	writer := writer{to: w, scope: newScope()}
	writer.document(root)
	writer.flush(1)
	return writer.err
}

// pieceBytes is how many bytes a writer collects before it writes them to an io.Writer.
const pieceBytes = 32 << 10

// A writer appends a document to b.
type writer struct {
	to    io.Writer // gets the pieces; nil: all stays in b
	err   error     // of to
	b     []byte
	scope scope
}

func (w *writer) document(root *frame.Element) {
	w.b = append(w.b, declaration...)
	w.element(root)
}

func (w *writer) element(e *frame.Element) {
	if w.err != nil {
		return
	}
	mark := w.scope.mark()
	w.b = append(w.b, '<')
	w.name(e)
	w.attributes(e)
	if len(e.Nodes) == 0 {
		w.b = append(w.b, "/>"...)
	} else {
		w.b = append(w.b, '>')
		for _, node := range e.Nodes {
			if node.Element != nil {
				w.element(node.Element)
			} else {
				w.escaped(node.Text, false)
			}
		}
		w.b = append(w.b, "</"...)
		w.name(e)
		w.b = append(w.b, '>')
	}
	w.scope.restore(mark)
	w.flush(pieceBytes)
}

func (w *writer) name(e *frame.Element) {
	if e.Prefix != "" {
		w.b = append(w.b, e.Prefix...)
		w.b = append(w.b, ':')
	}
	w.b = append(w.b, e.Name...)
}

// attributes writes the attributes of an element, and a declaration of its namespace if it needs one.
func (w *writer) attributes(e *frame.Element) {
	contradicted := isContradicted(e)
	for _, a := range e.Attributes {
		if contradicted && uses(a.Name, e.Prefix) {
			continue
		}
		if prefix, ok := declaredPrefix(a.Name); ok {
			w.scope.bind(prefix, a.Value)
		}
		w.attribute(a.Name, a.Value)
	}
	if !isKnown(e) || w.scope.namespace(e.Prefix) == e.Namespace {
		return
	}
	w.scope.bind(e.Prefix, e.Namespace)
	if e.Prefix == "" {
		w.attribute("xmlns", e.Namespace)
	} else {
		w.attribute("xmlns:"+e.Prefix, e.Namespace)
	}
}

// isKnown returns whether an element says in which namespace it is.
func isKnown(e *frame.Element) bool {
	return e.Namespace != "" || e.Prefix == ""
}

// isContradicted returns whether an attribute of an element declares another namespace for its prefix.
func isContradicted(e *frame.Element) bool {
	for _, a := range e.Attributes {
		if prefix, ok := declaredPrefix(a.Name); ok && prefix == e.Prefix && a.Value != e.Namespace {
			return isKnown(e)
		}
	}
	return false
}

// uses returns whether an attribute of this name declares the prefix or has it.
func uses(name, prefix string) bool {
	if declared, ok := declaredPrefix(name); ok {
		return declared == prefix
	}
	return strings.HasPrefix(name, prefix) && strings.HasPrefix(name[len(prefix):], ":")
}

func (w *writer) attribute(name, value string) {
	w.b = append(w.b, ' ')
	w.b = append(w.b, name...)
	w.b = append(w.b, `="`...)
	w.escaped(value, true)
	w.b = append(w.b, '"')
	w.flush(pieceBytes)
}

// escaped writes text or a value. It divides a long string, so that b stays short.
func (w *writer) escaped(s string, inValue bool) {
	const most = pieceBytes / 8
	for w.to != nil && len(s) > most {
		end := most
		for end > most-utf8.UTFMax && !utf8.RuneStart(s[end]) {
			end--
		}
		w.b = appendEscaped(w.b, s[:end], inValue)
		s = s[end:]
		w.flush(pieceBytes)
	}
	w.b = appendEscaped(w.b, s, inValue)
}

// flush writes b if it has at least so many bytes.
func (w *writer) flush(least int) {
	if w.to == nil || len(w.b) < least {
		return
	}
	if w.err == nil {
		_, w.err = w.to.Write(w.b)
	}
	w.b = w.b[:0]
}

// appendEscaped appends text or a value.
func appendEscaped(b []byte, s string, inValue bool) []byte {
	done := 0
	for i := 0; i < len(s); {
		if isPlain(s[i]) {
			i++
			continue
		}
		with, size := replacement(s[i:], inValue)
		if with != "" {
			b = append(b, s[done:i]...)
			b = append(b, with...)
			done = i + size
		}
		i += size
	}
	return append(b, s[done:]...)
}

// isPlain returns whether a byte is a character that is never escaped.
func isPlain(c byte) bool {
	return c >= ' ' && c < utf8.RuneSelf && c != '&' && c != '<' && c != '>' && c != '"'
}

// replacement returns what is written for the first character of s, and the size of the character. It is empty if the
// character is written as it is.
func replacement(s string, inValue bool) (with string, size int) {
	switch s[0] {
	case '&':
		return "&amp;", 1
	case '<':
		return "&lt;", 1
	case '>':
		return "&gt;", 1
	case '\r':
		return "&#13;", 1
	}
	if i := strings.IndexByte("\"\t\n", s[0]); i >= 0 {
		if inValue {
			return [...]string{"&quot;", "&#9;", "&#10;"}[i], 1
		}
		return "", 1
	}
	c, size := utf8.DecodeRuneInString(s)
	if c == utf8.RuneError && size == 1 || !isCharacter(c) {
		return string(utf8.RuneError), size
	}
	return "", size
}
