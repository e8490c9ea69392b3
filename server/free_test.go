package davserve

import (
	"context"
	"encoding/xml"
	"io"
	"log"
	"net/http/httptest"
	"strconv"
	"strings"
	"syscall"
	"testing"

	"davserve/internal/frame"
)

// quotaBody asks for the properties of a quota.
const quotaBody = `<propfind xmlns="DAV:"><prop><quota-available-bytes/><quota-used-bytes/></prop></propfind>`

// A quotaAnswer is a multistatus about the properties of a quota.
type quotaAnswer struct {
	Responses []struct {
		Href  string `xml:"href"`
		Parts []struct {
			Status    string `xml:"status"`
			Available string `xml:"prop>quota-available-bytes"`
			Used      string `xml:"prop>quota-used-bytes"`
		} `xml:"propstat"`
	} `xml:"response"`
}

// quotaOf asks for the quota of a resource and its members.
func quotaOf(c client, path, body, depth string) quotaAnswer {
	c.t.Helper()
	var answer quotaAnswer
	text := c.want(207, "PROPFIND", path, body, "Depth: "+depth)
	if err := xml.Unmarshal([]byte(text), &answer); err != nil {
		c.t.Fatalf("%v: %s", err, text)
	}
	return answer
}

// sizeOfDisk returns how many bytes the file system of a folder has.
func sizeOfDisk(t *testing.T, folder string) int64 {
	t.Helper()
	var disk syscall.Statfs_t
	if err := syscall.Statfs(folder, &disk); err != nil {
		t.Fatal(err)
	}
	return int64(disk.Blocks) * int64(disk.Bsize)
}

func TestWithoutAQuotaAFolderHasWhatIsFreeOnItsDisk(t *testing.T) {
	folder := t.TempDir()
	c := startServer(t, Options{Folder: folder})
	c.want(201, "MKCOL", "/sub", "")
	c.want(201, "PUT", "/sub/a", "hello")
	most := sizeOfDisk(t, folder)
	tests := []struct {
		path, body, depth string
		used              []string // of each resource
	}{
		{"/", quotaBody, "0", []string{"5"}},
		{"/", quotaBody, "1", []string{"5", "0"}},
		{"/sub/a", quotaBody, "infinity", []string{"5"}},
		{"/", `<q:propfind xmlns:q="DAV:"><q:allprop/><q:include><q:quota-used-bytes/><q:quota-available-bytes/></q:include></q:propfind>`,
			"0", []string{"5"}},
	}
	for _, test := range tests {
		answer := quotaOf(c, test.path, test.body, test.depth)
		if len(answer.Responses) != len(test.used) {
			t.Errorf("%s: %+v", test.path, answer)
			continue
		}
		for i, used := range test.used {
			part := answer.Responses[i].Parts[0]
			available, err := strconv.ParseInt(part.Available, 10, 64)
			if err != nil || available < 0 || available > most || part.Used != used || !strings.Contains(part.Status, "200") {
				t.Errorf("%s of a disk of %d bytes: %+v, want %s used bytes", answer.Responses[i].Href, most, part, used)
			}
		}
	}
}

func TestNamesOfAQuotaHaveNoNumber(t *testing.T) {
	c := startServer(t, Options{Folder: t.TempDir()})
	answer := quotaOf(c, "/", `<propfind xmlns="DAV:"><propname/></propfind>`, "0")
	if part := answer.Responses[0].Parts[0]; part.Available != "" || part.Used != "" {
		t.Errorf("the names are %+v", part)
	}
}

func TestPropertiesOfClientsLikeThatOfAQuotaStay(t *testing.T) {
	c := startServer(t, Options{Folder: t.TempDir()})
	const property = `<D:quota-available-bytes xmlns:D="urn:x">7</D:quota-available-bytes>`
	c.want(207, "PROPPATCH", "/", `<d:propertyupdate xmlns:d="DAV:"><d:set><d:prop>`+property+`</d:prop></d:set></d:propertyupdate>`)
	text := c.want(207, "PROPFIND", "/", `<d:propfind xmlns:d="DAV:"><d:prop><q:quota-available-bytes xmlns:q="urn:x"/></d:prop></d:propfind>`, "Depth: 0")
	if !strings.Contains(text, ">7<") {
		t.Errorf("the property of a client is in %s", text)
	}
}

func TestWhatIsFreeIsNotEnforced(t *testing.T) {
	handler, err := New(context.Background(), Options{
		Davd: davdForTests(t), Folder: t.TempDir(), Log: log.New(io.Discard, "", 0),
	})
	if err != nil {
		t.Fatal(err)
	}
	defer handler.Close(context.Background())
	if handler.quota != nil {
		t.Error("a handler without a quota enforces one")
	}
	if text := metricsOf(t, handler); hasLine(text, "davserve_quota") {
		t.Errorf("a quota is among the metrics\n%s", text)
	}
}

func TestAFolderWithAQuotaReportsIt(t *testing.T) {
	c := startServer(t, Options{Folder: t.TempDir(), Quota: 1000})
	c.want(201, "PUT", "/a", "hello")
	if part := quotaOf(c, "/", quotaBody, "0").Responses[0].Parts[0]; part.Available != "995" || part.Used != "5" {
		t.Errorf("the quota is %+v", part)
	}
	c.want(507, "PUT", "/b", strings.Repeat("x", 996))
}

func TestInMemoryWithoutAQuotaNoneIsReported(t *testing.T) {
	c := startServer(t, Options{})
	if part := quotaOf(c, "/", quotaBody, "0").Responses[0].Parts[0]; !strings.Contains(part.Status, "404") {
		t.Errorf("the quota is %+v", part)
	}
}

func TestADiskOfWhichNothingIsKnown(t *testing.T) {
	folder := t.TempDir()
	handler, err := New(context.Background(), Options{Davd: davdForTests(t), Folder: folder, Log: log.New(io.Discard, "", 0)})
	if err != nil {
		t.Fatal(err)
	}
	defer handler.Close(context.Background())
	handler.options.Folder = folder + "/none" // As if the disk could not be asked.
	c := client{t, httptest.NewServer(handler)}
	defer c.server.Close()
	c.want(500, "PROPFIND", "/", quotaBody, "Depth: 0")
	c.want(207, "PROPFIND", "/", "", "Depth: 0")
}

func TestSetAvailable(t *testing.T) {
	element := func(name string, nodes ...frame.Node) frame.Node {
		return frame.Node{Element: &frame.Element{Name: name, Prefix: "D", Nodes: nodes}}
	}
	text := func(text string) frame.Node { return frame.Node{Text: text} }
	of := func(property frame.Node) *frame.Response {
		found := element("multistatus", element("response", element("href", text("/")), element("propstat", element("prop", property))))
		return &frame.Response{Root: found.Element}
	}
	foreign := element(availableBytes, text("1"))
	foreign.Element.Namespace = "urn:x"
	tests := []struct {
		name     string
		property frame.Node
		want     string
	}{
		{"a number", element(availableBytes, text("1")), "7"},
		{"a name", element(availableBytes), ""},
		{"another property", element("quota-used-bytes", text("1")), "1"},
		{"the property of a client", foreign, "1"},
		{"inside another one", element("x", element(availableBytes, text("1"))), ""},
	}
	for _, test := range tests {
		setAvailable(of(test.property), 7)
		got := ""
		for _, node := range test.property.Element.Nodes {
			got += node.Text
		}
		if got != test.want {
			t.Errorf("%s: %q, want %q", test.name, got, test.want)
		}
	}
	setAvailable(&frame.Response{Status: 404}, 7) // It has no body.
}
