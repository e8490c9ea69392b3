// Package auth authenticates HTTP requests: by password (Basic, RFC 7617) or by a header field that a trusted proxy
// sets.
//
// Basic and Proxy each wrap a handler. The handler learns the user by User.
package auth

import (
	"context"
	"errors"
	"fmt"
	"net/http"
	"strings"
	"unicode"
	"unicode/utf8"
)

// maxName is how many bytes the name of a user may have.
const maxName = 256

type userKey struct{}

// User returns the name of the request's user. It reports false if nobody authenticated the request.
func User(ctx context.Context) (string, bool) {
	name, ok := ctx.Value(userKey{}).(string)
	return name, ok
}

// WithUser returns a context whose user is name.
func WithUser(ctx context.Context, name string) context.Context {
	return context.WithValue(ctx, userKey{}, name)
}

// checkName returns an error unless name can be the name of a user.
func checkName(name string) error {
	switch {
	case name == "":
		return errors.New("no name")
	case len(name) > maxName:
		return fmt.Errorf("the name has more than %d bytes", maxName)
	case !isText(name):
		return errors.New("the name is not UTF-8 or has a control character")
	}
	return nil
}

// isText reports whether s is UTF-8 without control characters.
func isText(s string) bool {
	return utf8.ValidString(s) && strings.IndexFunc(s, unicode.IsControl) < 0
}

// quoted returns s as a quoted-string (RFC 9110, section 5.6.4). It has no control character.
func quoted(s string) string {
	return `"` + strings.NewReplacer(`\`, `\\`, `"`, `\"`).Replace(s) + `"`
}

// checkRealm returns an error unless realm can be in a header field.
func checkRealm(realm string) error {
	if !isText(realm) {
		return fmt.Errorf("realm %q is not UTF-8 or has a control character", realm)
	}
	return nil
}

// fail answers a request with an error status.
func fail(w http.ResponseWriter, status int) {
	http.Error(w, strings.ToLower(http.StatusText(status)), status)
}
