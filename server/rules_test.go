package davserve

import (
	"fmt"
	"io"
	"log"
	"net/http"
	"net/http/httptest"
	"path/filepath"
	"strings"
	"testing"

	"davserve/internal/davd"
	"davserve/internal/davxml"
)

func TestRangesOfOtherUnitsAndWithoutBytes(t *testing.T) {
	c := startServer(t, Options{})
	c.want(201, "PUT", "/f", "hello")
	c.want(200, "GET", "/f", "", "Range: lines=1-2")
	c.want(416, "GET", "/f", "", "Range: bytes=-0")
}

func TestACopyCountsEachFile(t *testing.T) {
	c := startServer(t, Options{Quota: 1000})
	c.want(201, "MKCOL", "/d/", "")
	c.want(201, "MKCOL", "/d/e/", "")
	for _, name := range []string{"/d/a", "/d/e/b", "/d/z"} {
		c.want(201, "PUT", name, strings.Repeat("x", 200))
	}
	c.want(507, "COPY", "/d/", "", "Destination: /g/")
	c.want(204, "DELETE", "/d/z", "")
	c.want(201, "COPY", "/d/", "", "Destination: /g/")
}

func TestAShrinkingFileMakesNoRoomBeforeItIsWritten(t *testing.T) {
	c := startServer(t, Options{Quota: 1000})
	h := c.server.Config.Handler.(*Handler)
	c.want(201, "PUT", "/f", strings.Repeat("x", 900))
	release, err := h.reserveUpload(httptest.NewRequest("PUT", "/f", nil), 200) // It is not written yet.
	if err != nil {
		t.Fatal(err)
	}
	defer release()
	if h.quota.take(101) {
		t.Error("101 bytes are free beside 900 of 1000")
	}
}

func TestARequestThatIsDoneIsCountedOnce(t *testing.T) {
	c := startServer(t, Options{Quota: 1000})
	for i := 0; i < 20; i++ {
		c.want(201, "PUT", "/f", strings.Repeat("x", 900))
		c.want(204, "DELETE", "/f", "")
	}
	for i := 0; i < 5; i++ {
		c.want(201, "PUT", "/f", strings.Repeat("x", 400))
		c.want(201, "COPY", "/f", "", "Destination: /g")
		c.want(204, "DELETE", "/f", "")
		c.want(204, "DELETE", "/g", "")
	}
}

func TestABodyWithoutALengthIsLimited(t *testing.T) {
	c := startServer(t, Options{MaxBody: 600_000, MaxXML: 500})
	for _, length := range []int{600_001, 3 * piece} {
		response, _ := c.do("PUT", "/f", io.MultiReader(strings.NewReader(strings.Repeat("x", length))))
		if response.StatusCode != 413 {
			t.Errorf("%d bytes: status %d", length, response.StatusCode)
		}
	}
	c.want(404, "GET", "/f", "")
	small := startServer(t, Options{MaxBody: 1000})
	response, _ := small.do("PUT", "/f", io.MultiReader(strings.NewReader(strings.Repeat("x", 1001))))
	if response.StatusCode != 413 {
		t.Errorf("a short body: status %d", response.StatusCode)
	}
	xml := `<propfind xmlns="DAV:"><allprop/></propfind>`
	xml += strings.Repeat(" ", 501-len(xml))
	response, _ = c.do("PROPFIND", "/", io.MultiReader(strings.NewReader(xml)), "Depth: 0")
	if response.StatusCode != 413 {
		t.Errorf("XML of 501 bytes: status %d", response.StatusCode)
	}
	response, _ = c.do("PROPFIND", "/", io.MultiReader(strings.NewReader(xml[:500])), "Depth: 0")
	if response.StatusCode != 207 {
		t.Errorf("XML of 500 bytes: status %d", response.StatusCode)
	}
}

func TestConditionsReachTheEngine(t *testing.T) {
	c := startServer(t, Options{})
	c.want(201, "PUT", "/f", "one")
	c.want(201, "PUT", "/g", "two")
	c.want(412, "PUT", "/f", "x", "If-None-Match: *")
	c.want(412, "PUT", "/f", "x", `If-Match: "other"`)
	c.want(412, "COPY", "/f", "", "Destination: /g", "Overwrite: F")
	if got := c.want(200, "GET", "/f", ""); got != "one" {
		t.Errorf("the file is %q", got)
	}
}

func TestSafeHeaders(t *testing.T) {
	c := startServer(t, Options{})
	c.want(201, "PUT", "/a.html", "<script>alert(1)</script>")
	response, _ := c.do("GET", "/a.html", nil)
	if got := response.Header.Get("Content-Security-Policy"); got != "sandbox" {
		t.Errorf("Content-Security-Policy of HTML: %q", got)
	}
	if got := response.Header.Get("X-Content-Type-Options"); got != "nosniff" {
		t.Errorf("X-Content-Type-Options: %q", got)
	}
}

func TestAllowListsWhatIsServed(t *testing.T) {
	c := startServer(t, Options{})
	for _, method := range []string{"OPTIONS", "POST"} {
		response, _ := c.do(method, "/", nil)
		allowed := map[string]bool{}
		for _, name := range strings.Split(response.Header.Get("Allow"), ", ") {
			allowed[name] = true
		}
		for _, name := range []string{"OPTIONS", "GET", "HEAD", "PROPFIND", "PROPPATCH"} {
			if !allowed[name] {
				t.Errorf("Allow of a %s lacks %s: %v", method, name, allowed)
			}
		}
	}
}

func TestLockTokensDiffer(t *testing.T) {
	c := startServer(t, Options{})
	lock := `<lockinfo xmlns="DAV:"><lockscope><shared/></lockscope><locktype><write/></locktype></lockinfo>`
	first, _ := c.do("LOCK", "/f", strings.NewReader(lock))
	second, _ := c.do("LOCK", "/f", strings.NewReader(lock))
	one, other := first.Header.Get("Lock-Token"), second.Header.Get("Lock-Token")
	if !strings.HasPrefix(one, "<urn:uuid:") || one == other {
		t.Errorf("the tokens are %q and %q", one, other)
	}
}

func TestProppatchKeepsAProperty(t *testing.T) {
	c := startServer(t, Options{})
	c.want(201, "PUT", "/f", "x")
	set := `<set><prop><p xmlns="urn:x">kept</p></prop></set>`
	c.want(207, "PROPPATCH", "/f", `<propertyupdate xmlns="DAV:">`+set+`</propertyupdate>`)
	text := c.want(207, "PROPFIND", "/f", `<propfind xmlns="DAV:"><prop><p xmlns="urn:x"/></prop></propfind>`, "Depth: 0")
	if !strings.Contains(text, "kept") {
		t.Errorf("the property is lost: %s", text)
	}
}

func TestEachXMLBodyHasItsOwnTree(t *testing.T) {
	var kept trees
	for i := 0; i < 3*keptTrees; i++ {
		body := []byte(fmt.Sprintf("<a>%06d</a>", i))
		for k := 0; k < 2; k++ {
			root, err := kept.parse(body, davxml.LimitsFor(1000))
			if err != nil || len(root.Nodes) != 1 || root.Nodes[0].Text != string(body[3:9]) {
				t.Fatalf("%s is parsed to %+v, %v", body, root, err)
			}
		}
		if len(kept.roots) > keptTrees {
			t.Fatalf("%d trees are kept", len(kept.roots))
		}
	}
}

func TestAStoredBodyIsDropped(t *testing.T) {
	c := startServer(t, Options{Memory: 64 << 20})
	body := strings.Repeat("x", 2<<20)
	for i := 0; i < 40; i++ { // Without a drop, these are 80 MiB.
		response, text := c.do("PUT", "/f", strings.NewReader(body))
		if response.StatusCode != 201 && response.StatusCode != 204 {
			t.Fatalf("PUT %d: %d, %s", i, response.StatusCode, text)
		}
	}
}

func TestABodyWithoutALengthWhereNoneIsDefined(t *testing.T) {
	c := startServer(t, Options{})
	for body, status := range map[string]int{"": 404, "x": 415, "xy": 415} {
		if response, _ := c.do("DELETE", "/none", io.MultiReader(strings.NewReader(body))); response.StatusCode != status {
			t.Errorf("a body %q: status %d, want %d", body, response.StatusCode, status)
		}
	}
}

func TestALostRequestIs503(t *testing.T) {
	for _, err := range []error{davd.ErrLost, davd.ErrDown, davd.ErrClosed} {
		w := httptest.NewRecorder()
		h := &Handler{options: Options{Log: log.New(io.Discard, "", 0)}}
		h.fail(w, httptest.NewRequest("PUT", "/f", nil), fmt.Errorf("a PUT: %w", err))
		if w.Code != 503 || w.Header().Get("Retry-After") == "" {
			t.Errorf("%v: status %d, header %v", err, w.Code, w.Header())
		}
	}
}

func TestARequestThatAFullDiskEndedIs507(t *testing.T) {
	w := httptest.NewRecorder()
	h := &Handler{options: Options{Log: log.New(io.Discard, "", 0)}}
	h.fail(w, httptest.NewRequest("PUT", "/f", nil), fmt.Errorf("a PUT: %w", davd.ErrFull))
	if w.Code != 507 || w.Header().Get("Retry-After") != "" {
		t.Errorf("status %d, header %v", w.Code, w.Header())
	}
}

func TestARequestWhoseResponseNobodyKnowsHasNone(t *testing.T) {
	h := &Handler{options: Options{Log: log.New(io.Discard, "", 0)}}
	for _, err := range []error{davd.ErrKept, davd.ErrUnknown} {
		for _, method := range []string{"PUT", "DELETE", "PROPFIND", "GET"} {
			server := httptest.NewUnstartedServer(http.HandlerFunc(func(w http.ResponseWriter, r *http.Request) {
				h.fail(w, r, fmt.Errorf("a request: %w", err))
			}))
			server.Config.ErrorLog = h.options.Log
			server.Start()
			answer := client{t, server}.raw(method + " /f HTTP/1.1\r\nHost: h\r\nContent-Length: 0\r\n\r\n")
			server.Close()
			if answer != "" {
				t.Errorf("%v: the answer to a %s is %q", err, method, answer)
			}
		}
	}
}

func TestTheFolderOfDavdLooksLikeNoOption(t *testing.T) {
	options, err := Options{Davd: "davd", Folder: "-quota"}.complete()
	if err != nil || !filepath.IsAbs(options.Folder) || filepath.Base(options.Folder) != "-quota" {
		t.Errorf("the folder is %q, %v", options.Folder, err)
	}
	if options, err := (Options{Davd: "davd"}).complete(); err != nil || options.Folder != "" {
		t.Errorf("without a folder it is %q, %v", options.Folder, err)
	}
}

func TestTooLittleMemoryIsRefused(t *testing.T) {
	for _, test := range []struct {
		memory int64
		ok     bool
	}{{-1, false}, {0, true}, {1, false}, {leastMemory - 1, false}, {leastMemory, true}, {1 << 40, true}} {
		if _, err := (Options{Davd: "davd", Memory: test.memory}).complete(); (err == nil) != test.ok {
			t.Errorf("%d bytes: %v", test.memory, err)
		}
	}
}
