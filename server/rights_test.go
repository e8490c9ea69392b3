package davserve

import (
	"context"
	"errors"
	"io"
	"log"
	"net/http"
	"net/http/httptest"
	"strings"
	"testing"
)

// readOnly allows to list and to read.
const readOnly = "[[rule]]\neveryone = true\nat_and_below = \"/\"\nallow = [\"list\", \"read\"]\n"

// responseTo returns the response to a request without a body.
func responseTo(handler http.Handler, method, path string) *httptest.ResponseRecorder {
	recorder := httptest.NewRecorder()
	handler.ServeHTTP(recorder, httptest.NewRequest(method, path, nil))
	return recorder
}

// statusOf returns the status of a request without a body.
func statusOf(handler http.Handler, method, path string) int {
	return responseTo(handler, method, path).Code
}

func TestRightsAreReplaced(t *testing.T) {
	handler := startHandler(t, Options{Rights: readOnly})
	writable := strings.Replace(readOnly, `"read"`, `"read", "write"`, 1)
	var refused *RightsError
	for _, test := range []struct {
		text   string
		status int // of a MKCOL
	}{
		{readOnly, 403}, {writable, 201}, {"", 403}, {writable, 405}, {readOnly, 403},
	} {
		if err := handler.SetRights(context.Background(), test.text); err != nil {
			t.Fatal(err)
		}
		if err := handler.SetRights(context.Background(), "x = 1"); !errors.As(err, &refused) || refused.Reason == "" {
			t.Errorf("a text without rules: %v", err)
		}
		if got := statusOf(handler, "MKCOL", "/a"); got != test.status {
			t.Errorf("%q: MKCOL is %d, want %d", test.text, got, test.status)
		}
	}
}

func TestNewSaysWhyRightsAreRefused(t *testing.T) {
	for text, why := range map[string]string{
		readOnly + "[[rule]]\n":                       "rule 2: ",
		"[[rule]]\n\nuser = ada\n":                    "line 3",
		strings.Replace(readOnly, "true", "false", 1): "rule 1: ",
	} {
		for _, folder := range []string{"", t.TempDir()} {
			options := Options{Davd: davdForTests(t), Folder: folder, Rights: text, Log: log.New(io.Discard, "", 0)}
			_, err := New(context.Background(), options)
			var refused *RightsError
			if !errors.As(err, &refused) || !strings.Contains(refused.Reason, why) || !strings.Contains(err.Error(), why) {
				t.Errorf("%q: New: %v, want %q", text, err, why)
			}
		}
	}
}

// propfindStatus returns the status of a PROPFIND of a resource alone.
func propfindStatus(handler http.Handler, path string) int {
	request := httptest.NewRequest("PROPFIND", path, nil)
	request.Header.Set("Depth", "0")
	recorder := httptest.NewRecorder()
	handler.ServeHTTP(recorder, request)
	return recorder.Code
}

// rulesFor are rules by which everyone may do everything, except below a path.
func rulesFor(path string) string {
	return "[[rule]]\neveryone = true\nat_and_below = \"/\"\nallow = [\"list\", \"read\", \"write\"]\n" +
		"[[rule]]\neveryone = true\nat_and_below = '" + path + "'\nallow = []\n"
}

func TestARuleIsForThePathThatIsWritten(t *testing.T) {
	handler := startHandler(t, Options{Rights: rulesFor("/other")})
	for path, barred := range map[string]string{
		"/team":          "/team",
		"/team/":         "/team",
		"/team/d":        "/team/d",
		"/team%231":      "/team%231",
		"/a%3Fb%25":      "/a%3Fb%25",
		"/a b":           "/a%20b",
		"/a%20b":         "/a%20b",
		"/a\\b":          "/a%5Cb",
		"/\u00e9t\u00e9": "/%C3%A9t%C3%A9",
		"/a;b=c,d+e":     "/a;b=c,d+e",
		"/...":           "/...",
		"/.hidden":       "/.hidden",
	} {
		if err := handler.SetRights(context.Background(), rulesFor(path)); err != nil {
			t.Errorf("%q: %v", path, err)
		}
		if got := propfindStatus(handler, barred); got != 403 {
			t.Errorf("%q: PROPFIND %s is %d", path, barred, got)
		}
		if got := propfindStatus(handler, "/"); got != 207 {
			t.Errorf("%q: PROPFIND / is %d", path, got)
		}
	}
}

func TestARuleWithoutItsPathIsRefused(t *testing.T) {
	handler := startHandler(t, Options{Rights: readOnly})
	for _, path := range []string{
		"", "*", "team", "/#snapshot", "/team#1", "/a?b", "?", "//", "//a", "/a//", "/a//b", "/.", "/..", "/./a", "/a/.", "/a/../b",
		"/%2e", "/a/%2E%2e/b", "/a/.%2e", "/%", "/%2", "/%zz", "/a%2Fb", "/%00", "/%ff", "http://a/b",
	} {
		var refused *RightsError
		err := handler.SetRights(context.Background(), rulesFor(path))
		if !errors.As(err, &refused) || !strings.HasPrefix(refused.Reason, "rule 2: ") || !strings.Contains(refused.Reason, "at_and_below") {
			t.Errorf("%q: SetRights: %v", path, err)
		}
	}
	if got := statusOf(handler, "MKCOL", "/a"); got != 403 {
		t.Errorf("MKCOL by the rules before: %d", got)
	}
}

func TestARuleWithTheUserNeverDropsOut(t *testing.T) {
	user := ""
	principal := func(*http.Request) (string, bool) { return user, user != "" }
	handler := startHandler(t, Options{Rights: rulesFor("/{user}"), Principal: principal})
	for _, test := range []struct {
		user, path string
		status     int
	}{
		{"ann", "/", 207}, {"ann", "/ann", 403}, {"ann", "/bert", 404}, {"", "/", 207}, {"", "/ann", 404},
		{"a/b", "/", 403}, {"a/b", "/a/b", 403}, {"..", "/", 403}, {".", "/", 403}, {"a b", "/a%20b", 403}, {"a b", "/", 207},
	} {
		user = test.user
		if got := propfindStatus(handler, test.path); got != test.status {
			t.Errorf("%q: PROPFIND %s is %d, want %d", test.user, test.path, got, test.status)
		}
	}
	if err := handler.SetRights(context.Background(), readOnly); err != nil {
		t.Fatal(err)
	}
	user = "a/b"
	if got := propfindStatus(handler, "/"); got != 207 {
		t.Errorf("%q without a rule with the user: PROPFIND / is %d", user, got)
	}
}
