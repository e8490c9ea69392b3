package auth

import (
	"strings"
	"testing"

	"golang.org/x/crypto/bcrypt"
)

const (
	annLine = "ann:$2y$05$4HEJcbTrDmnsr.bCGL.sFe1l0OAwcY5msz.F3u0J6LqYNitmyYqX6"
	bobLine = "bob:$2y$05$yik1TG7htM8qQp7.LjF5zOAJQrtqbc3DcB04uengPqr69Ec.6SHB."
)

func TestSetPasswordKeepsOtherLines(t *testing.T) {
	tests := []struct {
		name, user, text string
		want             string // NEW is the line of the user
	}{
		{"no file", "ann", "", "NEW\n"},
		{"a new user", "ann", bobLine + "\n", bobLine + "\nNEW\n"},
		{"no line end at the end", "ann", bobLine, bobLine + "\nNEW\n"},
		{"comments and blank lines", "ann", "# users\n\n" + bobLine + "\n\n", "# users\n\n" + bobLine + "\n\nNEW\n"},
		{"a new password", "ann", annLine + "\n" + bobLine + "\n", "NEW\n" + bobLine + "\n"},
		{"a new password in the last line", "bob", annLine + "\n" + bobLine, annLine + "\nNEW"},
		{"lines that end with CRLF", "ann", annLine + "\r\n" + bobLine + "\r\n", "NEW\r\n" + bobLine + "\r\n"},
		{"a name that begins another one", "an", annLine + "\n", annLine + "\nNEW\n"},
		{"a name in another case", "Ann", annLine + "\n", annLine + "\nNEW\n"},
		{"a name in a comment", "ann", "#" + annLine + "\n", "#" + annLine + "\nNEW\n"},
		{"a name with a space, in UTF-8", "Jörg B", "", "NEW\n"},
	}
	for _, test := range tests {
		got, err := SetPassword(test.text, test.user, "open sesame", bcrypt.MinCost)
		if err != nil {
			t.Errorf("%s: %v", test.name, err)
			continue
		}
		users, err := parse(got)
		if err != nil {
			t.Errorf("%s: the new file: %v", test.name, err)
			continue
		}
		hash := users.hashes[test.user]
		if want := strings.Replace(test.want, "NEW", test.user+":"+hash, 1); got != want {
			t.Errorf("%s: got\n%q, want\n%q", test.name, got, want)
		}
		if !strings.HasPrefix(hash, "$2y$04$") || bcrypt.CompareHashAndPassword([]byte(hash), []byte("open sesame")) != nil {
			t.Errorf("%s: the hash is %s", test.name, hash)
		}
	}
}

func TestSetPasswordRefuses(t *testing.T) {
	tests := []struct{ text, user, password, says string }{
		{"", "", "p", "no name"},
		{"", "a:b", "p", "a colon"},
		{"", "#ann", "p", "begins with #"},
		{"", " ann", "p", "white space"},
		{"", "ann\n", "p", "control character"},
		{"", "a\xff", "p", "not UTF-8"},
		{"", strings.Repeat("a", 257), "p", "more than 256 bytes"},
		{"", "ann", "", "the password is empty"},
		{"", "ann", strings.Repeat("é", 37), "more than 72 bytes"},
		{"", "ann", "a\tb", "control character"},
		{"", "ann", "a\xff", "not UTF-8"},
		{"bob\n", "ann", "p", "line 1: no colon"},
		{annLine + "\n" + annLine + "\n", "ann", "p", "line 2: user \"ann\": the name is a duplicate"},
	}
	for _, test := range tests {
		if got, err := SetPassword(test.text, test.user, test.password, bcrypt.MinCost); err == nil || !strings.Contains(err.Error(), test.says) {
			t.Errorf("%q with the password %q: %q, %v, want an error with %q", test.user, test.password, got, err, test.says)
		}
	}
	if _, err := SetPassword("", "ann", strings.Repeat("é", 36), bcrypt.MinCost); err != nil {
		t.Errorf("a password of 72 bytes: %v", err)
	}
}

func TestHasUser(t *testing.T) {
	text := "# bob\n" + annLine + "\n"
	for name, want := range map[string]bool{"ann": true, "bob": false, "an": false} {
		if got, err := HasUser(text, name); err != nil || got != want {
			t.Errorf("%s: %v, %v", name, got, err)
		}
	}
	if _, err := HasUser("ann\n", "ann"); err == nil {
		t.Error("a file that is none of htpasswd has users")
	}
}
