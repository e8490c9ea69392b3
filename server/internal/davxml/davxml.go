// Package davxml reads the XML bodies of WebDAV requests into elements of package frame, and writes such elements as
// XML documents.
//
// The bodies come from strangers. Parse accepts only well-formed documents (XML 1.0) with well-formed namespaces
// (Namespaces in XML 1.0) and without a document type declaration. Limits bound the memory and the time that a body
// uses.
package davxml

import (
	"errors"
	"fmt"
	"io"
	"math"

	"davserve/internal/frame"
)

// ErrMalformed says that a body is no document that Parse accepts. The error that wraps it has the line and says why.
var ErrMalformed = errors.New("malformed XML")

// ErrTooLarge says that a body exceeds a limit. The error that wraps it says which.
var ErrTooLarge = errors.New("XML too large")

// Limits bound what Parse accepts. Each must be set: a limit of zero allows nothing.
type Limits struct {
	// Bytes is the greatest length of the body.
	Bytes int64
	// Levels is the greatest number of levels of elements. Parse never allows more than frame.RequestLevels.
	Levels int
	// Elements is the greatest number of elements.
	Elements int
	// Attributes is the greatest number of attributes of all elements, with those that Parse adds.
	Attributes int
	// Tree is the greatest number of bytes of the tree as the body of a request in a frame. Each element has its
	// namespace there, so a short body can need a long frame.
	Tree int64
}

// LimitsFor returns limits for bodies of up to so many bytes: frame.RequestLevels levels, 10,000 elements,
// 10,000 attributes, and a tree of eight times the bytes.
func LimitsFor(bytes int64) Limits {
	tree := int64(math.MaxInt64)
	if bytes < math.MaxInt64/8 {
		tree = 8 * bytes
	}
	return Limits{Bytes: bytes, Levels: frame.RequestLevels, Elements: 10_000, Attributes: 10_000, Tree: tree}
}

// Parse reads the body of a PROPFIND, PROPPATCH or LOCK to its end, and returns its root element.
//
// Each element has its local name, its prefix and its namespace. Its attributes are those that the client wrote, in
// ascending order of the bytes of their names. Text keeps its white space. It is one string up to the next tag: a
// comment, a processing instruction or a CDATA section does not divide it. Comments and processing instructions are
// dropped.
//
// An element can be stored without the elements around it. If an attribute has a prefix that an outer element declares,
// Parse adds the declaration to the attribute's own element. If a property in the DAV:set of a PROPPATCH, or the owner
// of a LOCK, is in the scope of the xml:lang of an outer element, Parse adds that to it (RFC 4918, sections 4.3, 14.17
// and 14.26).
//
// The encoding is UTF-8, or US-ASCII if the XML declaration says so. A name has the characters that the fourth edition
// of XML 1.0 allows in names, which are those that encoding/xml knows.
//
// Parse reads at most limits.Bytes bytes from r, and one more to know whether there are more. The caller limits the
// time that r takes. An error wraps ErrMalformed or ErrTooLarge. If r fails, it wraps the error of r instead.
func Parse(r io.Reader, limits Limits) (*frame.Element, error) {
	p := newParser(r, limits)
	for {
		token, err := p.decoder.RawToken()
		if err == io.EOF {
			return p.end()
		}
		if err != nil {
			return nil, p.failure(err)
		}
		if err := p.accept(token); err != nil {
			return nil, err
		}
		p.in.nextToken(len(p.open) > 0)
	}
}

// malformed returns an error that wraps ErrMalformed.
func malformed(line int, why string) error {
	return fmt.Errorf("%w: line %d: %s", ErrMalformed, line, why)
}

// tooMany returns an error that wraps ErrTooLarge.
func tooMany(limit int64, what string) error {
	return fmt.Errorf("%w: more than %d %s", ErrTooLarge, limit, what)
}
