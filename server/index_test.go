package davserve

import (
	"crypto/sha256"
	"encoding/base64"
	"fmt"
	"html"
	"html/template"
	"net/http"
	"net/url"
	"regexp"
	"strings"
	"testing"
	"time"
)

func TestCrumbsLeadToTheCollectionsAbove(t *testing.T) {
	for path, want := range map[string][]string{
		"/":                    {"Files"},
		"":                     {"Files"},
		"/a/":                  {"../ Files", "a"},
		"/a/b%20c/":            {"../../ Files", "../ a", "b c"},
		"/%3Cb%3E/%2F/%25/":    {"../../../ Files", "../../ <b>", "../ /", "%"},
		"/%E4%BD%A0/%D7%A9/":   {"../../ Files", "../ 你", "ש"},
		"/javascript:alert(1)": {"../ Files", "javascript:alert(1)"},
	} {
		above, name := crumbsOf(path)
		var got []string
		for _, it := range above {
			got = append(got, it.Link+" "+it.Name)
		}
		got = append(got, name)
		if strings.Join(got, "|") != strings.Join(want, "|") {
			t.Errorf("%q: %q, want %q", path, got, want)
		}
	}
}

func TestTheCountNamesFoldersAndFiles(t *testing.T) {
	folder, file := member{IsCollection: true}, member{}
	for want, members := range map[string][]member{
		"1 file":             {file},
		"2 files":            {file, file},
		"1 folder":           {folder},
		"1 folder, 1 file":   {folder, file},
		"2 folders, 3 files": {folder, file, folder, file, file},
	} {
		if got := countOf(members); got != want {
			t.Errorf("%q, want %q", got, want)
		}
	}
}

func TestARowHasWhatIsKnown(t *testing.T) {
	modified := time.Date(2026, 11, 28, 23, 5, 59, 0, time.FixedZone("", 3600))
	for _, test := range []struct {
		member member
		want   row
	}{
		{member{Href: "/d/a%20b", Length: 1500, Modified: modified},
			row{"file", "./a%20b", "a b", 1500, "1.5 kB", "1,500 bytes", "2026-11-28T22:05:59Z", "2026-11-28", "22:05"}},
		{member{Href: "/d/sub/", IsCollection: true}, row{Kind: "folder", Link: "./sub/", Name: "sub/"}},
		{member{Href: "/d/x:y%2Fz"}, row{Kind: "file", Link: "./x:y%2Fz", Name: "x:y/z", Size: "0 bytes", Exact: "0 bytes"}},
		{member{Href: "/d/%22%3C%23%3F"}, row{Kind: "file", Link: "./%22%3C%23%3F", Name: `"<#?`, Size: "0 bytes", Exact: "0 bytes"}},
	} {
		if got := rowOf(test.member); got != test.want {
			t.Errorf("%+v, want %+v", got, test.want)
		}
	}
}

// inline returns what the only element of a name contains.
func inline(t *testing.T, text, name string) string {
	t.Helper()
	found := regexp.MustCompile(`(?s)<`+name+`>(.*?)</`+name+`>`).FindAllStringSubmatch(text, -1)
	if len(found) != 1 || strings.Count(text, "<"+name) != 1 {
		t.Fatalf("the page has %d elements %s: %s", strings.Count(text, "<"+name), name, text)
	}
	return found[0][1]
}

// sourceOf returns the source by which a Content-Security-Policy allows a text.
func sourceOf(text string) string {
	sum := sha256.Sum256([]byte(text))
	return "'sha256-" + base64.StdEncoding.EncodeToString(sum[:]) + "'"
}

func TestThePolicyAllowsOnlyThisScriptAndStyle(t *testing.T) {
	c := startServer(t, Options{})
	response, text := c.do("GET", "/", nil)
	want := "default-src 'none'; style-src " + sourceOf(inline(t, text, "style")) +
		"; form-action 'none'; frame-ancestors 'none'; base-uri 'none'; script-src " + sourceOf(inline(t, text, "script")) +
		"; connect-src 'self'"
	if got := response.Header.Get("Content-Security-Policy"); got != want {
		t.Errorf("the policy is\n%q, want\n%q", got, want)
	}
}

func TestAPageOfOneWhoMayNotWriteHasNoScript(t *testing.T) {
	handler := startHandler(t, Options{Rights: readOnly})
	recorder := responseTo(handler, http.MethodGet, "/")
	text := recorder.Body.String()
	if strings.Contains(text, "<script") || strings.Contains(text, "<button") {
		t.Errorf("the page has a script: %s", text)
	}
	want := "default-src 'none'; style-src " + sourceOf(inline(t, text, "style")) +
		"; form-action 'none'; frame-ancestors 'none'; base-uri 'none'"
	if got := recorder.Header().Get("Content-Security-Policy"); got != want {
		t.Errorf("the policy is\n%q, want\n%q", got, want)
	}
}

func TestWhoMayUpload(t *testing.T) {
	rules := func(pairs ...string) (text string) {
		for i := 0; i < len(pairs); i += 2 {
			text += fmt.Sprintf("[[rule]]\neveryone = true\n%s\nallow = [%s]\n", pairs[i], pairs[i+1])
		}
		return text
	}
	for _, test := range []struct {
		name, rights string
		want         bool
	}{
		{"no rules", "", true},
		{"all", rules(`at_and_below = "/"`, `"list", "write"`), true},
		{"only the collection itself", rules(`at = "/"`, `"list", "write"`, `at_and_below = "/"`, `"list"`), false},
		{"only what is below it", rules(`at = "/"`, `"list"`, `at_and_below = "/"`, `"list", "write"`), true},
		{"one name", rules(`at_and_below = "/"`, `"list"`, `at = "/a"`, `"write"`), false},
	} {
		t.Run(test.name, func(t *testing.T) {
			handler := startHandler(t, Options{Rights: test.rights})
			recorder := responseTo(handler, http.MethodGet, "/")
			if got := strings.Contains(recorder.Body.String(), `id="upload"`); got != test.want || recorder.Code != 200 {
				t.Errorf("status %d, upload %v, want %v", recorder.Code, got, test.want)
			}
		})
	}
}

func TestThePageBelowAPrefix(t *testing.T) {
	c := startServer(t, Options{Prefix: "/dav/files", MaxBody: 1234})
	c.want(201, "MKCOL", "/dav/files/a%20b/", "")
	for path, links := range map[string][]string{
		"/dav/files/":                  {`"./a%20b/"`},
		"/dav/files/a%20b/":            {`"../"`},
		"/dav/files/../files/a%20b/./": {`"../"`},
		"/dav/files/a%20b/../a%20b/":   {`"../"`},
		"/dav/%66iles/a%20b/?a=b":      {`"../"`},
		"/dav/files//a%20b/":           {`"../"`},
	} {
		text := c.want(200, "GET", path, "")
		found := regexp.MustCompile(`href=("[^"]*")`).FindAllStringSubmatch(text, -1)
		var got []string
		for _, it := range found {
			got = append(got, it[1])
		}
		if strings.Join(got, " ") != strings.Join(links, " ") {
			t.Errorf("%s: the links %s, want %s", path, got, links)
		}
		if !strings.Contains(text, `data-longest="1234"`) {
			t.Errorf("%s: the page lacks the length of the longest file", path)
		}
	}
	if text := c.want(200, "GET", "/dav/files/a%20b/", ""); !strings.Contains(text, "This folder is empty.") {
		t.Errorf("the page of an empty folder: %s", text)
	}
}

func TestThePageEscapesNames(t *testing.T) {
	c := startServer(t, Options{})
	names := map[string]string{
		"/%3Cscript%3Ealert(1)%3C%22/":        "<script>alert(1)<\"/",
		"/javascript:alert(1)/":               "javascript:alert(1)/",
		"/a&amp;b'/":                          "a&amp;b'/",
		"/%7B%7B.%7D%7D/":                     "{{.}}/",
		"/%E2%80%AE%D7%A9%D7%9C%D7%95%D7%9D/": "\u202eשלום/",
	}
	for path := range names {
		c.want(201, "MKCOL", path, "")
	}
	text := c.want(200, "GET", "/", "")
	inline(t, text, "script") // fails if there is another one
	for path, name := range names {
		if want := "<bdi>" + html.EscapeString(name) + "</bdi>"; !strings.Contains(text, want) {
			t.Errorf("the page lacks %s: %s", want, text)
		}
		below := c.want(200, "GET", path, "")
		inline(t, below, "script")
		want := "<h1 aria-current=\"page\"><bdi>" + html.EscapeString(strings.TrimSuffix(name, "/")) + "</bdi></h1>"
		if !strings.Contains(below, want) {
			t.Errorf("%s: the page lacks %s: %s", path, want, below)
		}
	}
	for _, link := range []string{`"./%3Cscript%3Ealert%281%29%3C%22/"`, `"./javascript:alert%281%29/"`} {
		if !strings.Contains(text, "href="+link) {
			t.Errorf("the page lacks the link %s: %s", link, text)
		}
	}
}

func TestHeadOfThePageIsThatOfGet(t *testing.T) {
	handler := startHandler(t, Options{})
	get, head := responseTo(handler, http.MethodGet, "/"), responseTo(handler, http.MethodHead, "/")
	for _, name := range []string{"Content-Length", "Content-Security-Policy", "Cache-Control", "Content-Type"} {
		if got, want := head.Header().Get(name), get.Header().Get(name); got != want || got == "" {
			t.Errorf("%s of HEAD is %q, and of GET %q", name, got, want)
		}
	}
	if head.Code != 200 || head.Body.Len() != 0 {
		t.Errorf("HEAD: status %d with %d bytes", head.Code, head.Body.Len())
	}
}

func TestLinksHaveNoCharacterReferences(t *testing.T) {
	for _, name := range []string{"a+b", "a&b", "a'b", `a"b`, "a<b>", "a&#43;b", "ä b", "a:b"} {
		link := linkTo(name)
		if escaped := template.HTMLEscapeString(link); escaped != link || strings.Contains(link, "+") {
			t.Errorf("the link to %q is %q, which the page has as %q", name, link, escaped)
		}
		if back, err := url.PathUnescape(link); err != nil || back != "./"+name {
			t.Errorf("the link to %q leads to %q: %v", name, back, err)
		}
	}
}
