package davxml

import (
	"encoding/xml"
	"strings"
	"unicode"
	"unicode/utf8"
)

const (
	xmlNamespace   = "http://www.w3.org/XML/1998/namespace"
	xmlnsNamespace = "http://www.w3.org/2000/xmlns/"
)

// isQualified returns whether a name that the decoder read is a qualified name: a local name, or a prefix, a colon and
// a local name (Namespaces in XML 1.0, section 4).
func isQualified(name xml.Name) bool {
	if strings.Contains(name.Local, ":") { // the decoder splits no other name
		return false
	}
	first, _ := utf8.DecodeRuneInString(name.Local)
	return name.Space == "" || startsName(first)
}

// startsName returns whether a character that may be in a name may also be its first (XML 1.0, fourth edition,
// appendix B).
func startsName(c rune) bool {
	switch {
	case c < utf8.RuneSelf:
		return c == '_' || 'a' <= c && c <= 'z' || 'A' <= c && c <= 'Z'
	case 0x02BB <= c && c <= 0x02C1, c == 0x0559, c == 0x06E5, c == 0x06E6, c == 0x212E:
		return true
	case c == 0x0B83, 0x0F88 <= c && c <= 0x0F8B: // letters only since a later version of Unicode
		return false
	}
	return unicode.In(c, unicode.Ll, unicode.Lu, unicode.Lo, unicode.Lt, unicode.Nl)
}

// written returns a name as it was written.
func written(name xml.Name) string {
	if name.Space == "" {
		return name.Local
	}
	return name.Space + ":" + name.Local
}

// declaredPrefix returns the prefix that an attribute of this name declares. It is empty for the default namespace.
func declaredPrefix(name string) (prefix string, ok bool) {
	if !strings.HasPrefix(name, "xmlns") {
		return "", false
	}
	rest := name[len("xmlns"):]
	if rest == "" {
		return "", true
	}
	return rest[1:], rest[0] == ':'
}

// refusal says why a prefix must not be bound to a namespace (Namespaces in XML 1.0, section 3). It is empty if it may.
func refusal(prefix, namespace string) string {
	switch {
	case prefix == "xmlns":
		return "the prefix xmlns is declared"
	case namespace == xmlnsNamespace:
		return "the namespace of xmlns is declared"
	case (prefix == "xml") != (namespace == xmlNamespace):
		return "the prefix xml and its namespace are declared apart"
	case prefix != "" && namespace == "":
		return "a prefix is undeclared"
	}
	return ""
}

// A scope knows which namespaces the prefixes are bound to where an element is. The empty prefix stands for the default
// namespace.
type scope struct {
	bound map[string]string
	outer []binding // what was bound before each binding
}

type binding struct {
	prefix, namespace string
}

func newScope() scope {
	return scope{bound: map[string]string{"xml": xmlNamespace}}
}

// namespace returns the namespace of a prefix, or an empty string if there is none.
func (s *scope) namespace(prefix string) string {
	return s.bound[prefix]
}

func (s *scope) bind(prefix, namespace string) {
	s.outer = append(s.outer, binding{prefix, s.bound[prefix]})
	s.bound[prefix] = namespace
}

// mark returns a mark of the present bindings, for restore.
func (s *scope) mark() int {
	return len(s.outer)
}

// restore removes the bindings since the mark.
func (s *scope) restore(mark int) {
	for len(s.outer) > mark {
		last := s.outer[len(s.outer)-1]
		s.outer = s.outer[:len(s.outer)-1]
		if last.namespace == "" {
			delete(s.bound, last.prefix)
		} else {
			s.bound[last.prefix] = last.namespace
		}
	}
}
