package transfer

import (
	"errors"
	"net/url"
	"strings"
	"unicode/utf8"
)

// errPath says that a path is not one of a store.
var errPath = errors.New("the path is none of a resource: it begins with a slash, has no empty segment and no . or .., " +
	"and % begins two hexadecimal digits")

// Parse returns a path of a store in the form in which it is used: percent-encoded, and without a slash at the end. That of
// the root is a slash.
func Parse(path string) (string, error) {
	if !strings.HasPrefix(path, "/") {
		return "", errPath
	}
	if path == "/" {
		return path, nil
	}
	var parsed strings.Builder
	for _, segment := range strings.Split(strings.TrimSuffix(path[1:], "/"), "/") {
		name, err := url.PathUnescape(segment)
		if err != nil || !isName(name) {
			return "", errPath
		}
		parsed.WriteString("/" + escape(name))
	}
	return parsed.String(), nil
}

// isName reports whether a member of a collection may have a name.
func isName(name string) bool {
	return name != "" && name != "." && name != ".." && utf8.ValidString(name)
}

// escape returns a name as a segment of a path.
func escape(name string) string { return url.PathEscape(name) }
