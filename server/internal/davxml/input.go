package davxml

import (
	"bufio"
	"fmt"
	"io"
	"math"
)

// A place says where in a document an input is.
type place int

const (
	inContent  place = iota
	inMarkup         // after "<"
	inOther          // in an end tag, a comment, a CDATA section, a processing instruction or a directive
	inTag            // in a start tag
	inValue          // in the value of an attribute
	afterValue       // after the quote that ends it
)

// An input passes a body to an xml.Decoder, byte by byte. It bounds the body, and follows rules of XML 1.0 that the
// decoder does not follow:
//
//   - White space in the value of an attribute becomes spaces, unless a reference stands for it (section 3.3.3).
//   - White space separates attributes (section 3.1).
//   - Only white space, comments and processing instructions may be outside the root element (section 2.1).
//   - A reference to a surrogate is malformed (section 4.1).
//   - The value of an attribute may have "]]>" (section 2.3). The decoder gets "]]&gt;".
type input struct {
	r         *bufio.Reader
	limits    Limits
	err       error // the first error of r or of the input, or io.EOF
	bytes     int64
	line      int
	values    int  // how many values of attributes have begun
	ascii     bool // whether the encoding is US-ASCII
	inRoot    bool
	place     place
	quote     byte   // ends the value
	last      byte   // from r
	pending   string // what the decoder gets before the next byte from r
	reference reference
}

func newInput(r io.Reader, limits Limits) *input {
	most := limits.Bytes
	if most < math.MaxInt64 {
		most++
	}
	return &input{r: bufio.NewReaderSize(io.LimitReader(r, most), 1024), limits: limits, line: 1}
}

// ReadByte returns the next byte for the decoder.
func (in *input) ReadByte() (byte, error) {
	if in.pending != "" {
		c := in.pending[0]
		in.pending = in.pending[1:]
		return c, nil
	}
	last := in.last
	c, err := in.next()
	if in.bytes == 1 && c == 0xEF {
		c, err = in.afterMark()
	}
	if in.place == inValue && last == '\r' && c == '\n' { // the decoder got a space for both
		c, err = in.next()
	}
	if err != nil {
		return 0, err
	}
	return in.pass(c)
}

// Read makes an input an io.Reader, as the decoder requires. The decoder calls only ReadByte.
func (in *input) Read(b []byte) (int, error) {
	if len(b) == 0 {
		return 0, nil
	}
	c, err := in.ReadByte()
	if err != nil {
		return 0, err
	}
	b[0] = c
	return 1, nil
}

// next returns the next byte of the body.
func (in *input) next() (byte, error) {
	if in.err != nil {
		return 0, in.err
	}
	c, err := in.r.ReadByte()
	switch {
	case err == io.EOF:
		return 0, in.fail(err)
	case err != nil:
		return 0, in.fail(fmt.Errorf("read XML: %w", err))
	}
	in.bytes++
	if in.bytes > in.limits.Bytes {
		return 0, in.fail(tooMany(in.limits.Bytes, "bytes"))
	}
	if in.ascii && c >= 0x80 {
		return 0, in.malformed("a byte is not US-ASCII")
	}
	if c == '\n' {
		in.line++
	}
	in.last = c
	return c, nil
}

// afterMark returns the byte after the byte order mark of UTF-8, of which the first byte was read.
func (in *input) afterMark() (byte, error) {
	for _, want := range []byte{0xBB, 0xBF} {
		c, err := in.next()
		if err != nil {
			return 0, err
		}
		if c != want {
			return 0, in.malformed("there is text outside the root element")
		}
	}
	return in.next()
}

// pass follows a byte through the document, and returns what the decoder gets for it.
func (in *input) pass(c byte) (byte, error) {
	if (in.place == inContent || in.place == inValue) && !in.reference.pass(c) {
		return 0, in.malformed("there is a reference to a surrogate")
	}
	switch in.place {
	case inContent:
		if c == '<' {
			in.place = inMarkup
		} else if !in.inRoot && !isSpace(c) {
			return 0, in.malformed("there is text outside the root element")
		}
	case inMarkup:
		in.place = inTag
		if c == '/' || c == '?' || c == '!' {
			in.place = inOther
		}
	case inTag:
		return c, in.passInTag(c)
	case inValue:
		return in.passInValue(c), nil
	case afterValue:
		if !isSpace(c) && c != '/' && c != '>' {
			return 0, in.malformed("there is no white space after an attribute")
		}
		in.place = inTag
		return c, in.passInTag(c)
	}
	return c, nil
}

func (in *input) passInTag(c byte) error {
	switch c {
	case '>':
		in.place = inContent
	case '"', '\'':
		in.place = inValue
		in.quote = c
		in.values++
		if in.values > in.limits.Attributes {
			return in.fail(tooMany(int64(in.limits.Attributes), "attributes"))
		}
	}
	return nil
}

func (in *input) passInValue(c byte) byte {
	switch c {
	case in.quote:
		in.place = afterValue
	case '\t', '\n', '\r':
		return ' '
	case '>':
		in.pending = "gt;"
		return '&'
	}
	return c
}

// nextToken must be called after each token of the decoder.
func (in *input) nextToken(inRoot bool) {
	in.inRoot = inRoot
	if in.place == inOther {
		in.place = inContent
	}
}

func (in *input) malformed(why string) error {
	return in.fail(malformed(in.line, why))
}

// fail ends the input with an error, and returns it.
func (in *input) fail(err error) error {
	in.err = err
	return err
}

func isSpace(c byte) bool {
	return c == ' ' || c == '\t' || c == '\n' || c == '\r'
}

// A reference follows references to characters, such as &#xD800;, byte by byte.
type reference struct {
	base  rune // 0: outside; 1: after "&"; 10: after "&#"; 16: after "&#x"
	value rune
}

// pass returns false if the byte ends a reference to a surrogate.
func (f *reference) pass(c byte) bool {
	switch {
	case c == '&':
		*f = reference{base: 1}
	case f.base == 1 && c == '#':
		f.base = 10
	case f.base == 10 && c == 'x':
		f.base = 16
	case f.base >= 10 && c == ';':
		f.base = 0
		return f.value < 0xD800 || f.value > 0xDFFF
	case f.base >= 10 && digit(c) < f.base:
		f.value = f.value*f.base + digit(c)
		if f.value > 0x10FFFF {
			f.value = 0x110000 // no character, and no overflow
		}
	default:
		f.base = 0
	}
	return true
}

// digit returns the value of a hexadecimal digit, or 16 for any other byte.
func digit(c byte) rune {
	switch {
	case '0' <= c && c <= '9':
		return rune(c - '0')
	case 'a' <= c && c <= 'f':
		return rune(c-'a') + 10
	case 'A' <= c && c <= 'F':
		return rune(c-'A') + 10
	}
	return 16
}
