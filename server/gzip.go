package davserve

import (
	"compress/gzip"
	"io"
	"net/http"
	"strconv"
	"strings"
	"sync"
)

// worthGzip is from how many bytes on an XML body is compressed, if its client accepts that.
const worthGzip = 1 << 10

// gzips are writers that no response uses. A new one takes about a megabyte.
var gzips = sync.Pool{New: func() any {
	writer, err := gzip.NewWriterLevel(io.Discard, gzip.BestSpeed)
	if err != nil {
		panic(err) // The level is valid.
	}
	return writer
}}

// newGzip returns a writer that compresses to w. It is given back to gzips.
func newGzip(w io.Writer) *gzip.Writer {
	writer := gzips.Get().(*gzip.Writer)
	writer.Reset(w)
	return writer
}

// acceptsGzip reports whether a client accepts a body that gzip has compressed (RFC 9110, section 12.5.3). An encoding
// that is named counts more than the asterisk.
func acceptsGzip(header http.Header) bool {
	accepts, isNamed := false, false
	for _, value := range header["Accept-Encoding"] {
		for _, choice := range strings.Split(value, ",") {
			coding, weight, _ := strings.Cut(choice, ";")
			switch strings.ToLower(strings.TrimSpace(coding)) {
			case "gzip", "x-gzip":
				accepts, isNamed = hasWeight(weight), true
			case "*":
				accepts = isNamed && accepts || !isNamed && hasWeight(weight)
			}
		}
	}
	return accepts
}

// hasWeight reports whether a weight is more than 0 (RFC 9110, section 12.4.2). Without one it is 1.
func hasWeight(text string) bool {
	text = strings.TrimSpace(text)
	if text == "" {
		return true
	}
	name, value, _ := strings.Cut(text, "=")
	weight, err := strconv.ParseFloat(strings.TrimSpace(value), 64)
	return strings.EqualFold(strings.TrimSpace(name), "q") && err == nil && weight > 0
}
