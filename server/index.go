package davserve

import (
	"bytes"
	"context"
	"crypto/sha256"
	_ "embed" // for the parts of the page
	"encoding/base64"
	"fmt"
	"html/template"
	"net/http"
	"net/url"
	"sort"
	"strconv"
	"strings"
	"time"

	"davserve/internal/members"
	"davserve/internal/size"
)

var (
	//go:embed page/page.html
	pageText string
	//go:embed page/page.css
	pageStyle string
	//go:embed page/upload.js
	pageScript string
)

// page lists the members of a collection for people.
var page = template.Must(template.New("page").Parse(pageText))

// policy allows the page its style and nothing else. A page that uploads may also run its script, which may send requests
// to this server.
var (
	policy = "default-src 'none'; style-src " + hashSource(pageStyle) +
		"; form-action 'none'; frame-ancestors 'none'; base-uri 'none'"
	uploadPolicy = policy + "; script-src " + hashSource(pageScript) + "; connect-src 'self'"
)

// topName is what the page calls the collection that has no name, because nothing is above it.
const topName = "Files"

// newName stands for the name of a new member. No access rule has it.
const newName = "davserve-new-name"

// A view is what the page shows.
type view struct {
	Name    string
	Above   []crumb
	Rows    []row
	Count   string
	Longest int64 // of a file to upload, in bytes
	Style   template.CSS
	Script  template.JS // empty: the page does not upload
}

// A crumb is a collection above that of the page.
type crumb struct {
	Link string
	Name string
}

// A row is what the page shows of a member.
type row struct {
	Kind     string
	Link     string
	Name     string
	Bytes    int64
	Size     string // empty for a collection
	Exact    string
	Modified string // empty: not known
	Date     string
	Clock    string
}

// index answers a GET of a collection.
func (h *Handler) index(w http.ResponseWriter, r *http.Request) error {
	self, members, err := h.list(r.Context(), pathOf(r), h.principal(r))
	if err != nil {
		return err
	}
	uploads, err := h.mayAdd(r.Context(), self.Href, h.principal(r))
	if err != nil {
		return err
	}
	var body bytes.Buffer
	if err := page.Execute(&body, h.viewOf(self, members, uploads)); err != nil {
		return fmt.Errorf("the page: %w", err)
	}
	header := w.Header()
	header.Set("Content-Type", "text/html; charset=utf-8")
	header.Set("Content-Security-Policy", policyOf(uploads))
	header.Set("Cache-Control", "no-cache")
	header.Set("Content-Length", strconv.Itoa(body.Len()))
	w.WriteHeader(http.StatusOK)
	if r.Method != http.MethodHead {
		w.Write(body.Bytes()) // An error means that the client has left.
	}
	return nil
}

// mayAdd reports whether the access rules allow a principal to write a new member of a collection. Rules for the name of
// one member may say otherwise.
func (h *Handler) mayAdd(ctx context.Context, collection string, principal *string) (bool, error) {
	explained, err := h.engine.Explain(ctx, principal, collection+newName)
	return explained.Write, err
}

// viewOf returns what the page of a collection shows.
func (h *Handler) viewOf(self member, members []member, uploads bool) view {
	sort.Slice(members, func(i, j int) bool {
		if members[i].IsCollection != members[j].IsCollection {
			return members[i].IsCollection
		}
		return members[i].Name() < members[j].Name()
	})
	v := view{Style: template.CSS(pageStyle), Count: countOf(members), Longest: h.options.MaxBody}
	v.Above, v.Name = crumbsOf(strings.TrimPrefix(self.Href, h.options.Prefix))
	for _, m := range members {
		v.Rows = append(v.Rows, rowOf(m))
	}
	if uploads {
		v.Script = template.JS(pageScript)
	}
	return v
}

// policyOf returns the Content-Security-Policy of a page.
func policyOf(uploads bool) string {
	if uploads {
		return uploadPolicy
	}
	return policy
}

// hashSource returns the source of a Content-Security-Policy that allows exactly this inline text.
func hashSource(text string) string {
	sum := sha256.Sum256([]byte(text))
	return "'sha256-" + base64.StdEncoding.EncodeToString(sum[:]) + "'"
}

// crumbsOf returns the collections above one, the highest first, and its own name. The path is percent-encoded, without
// the prefix of the server, and ends with a slash. The links are relative, so that they stay on this host.
func crumbsOf(path string) (above []crumb, name string) {
	name = topName
	segments := strings.Split(strings.Trim(path, "/"), "/")
	if segments[0] == "" {
		return nil, name
	}
	for i, segment := range segments {
		above = append(above, crumb{Name: name, Link: strings.Repeat("../", len(segments)-i)})
		name = members.Unescaped(segment)
	}
	return above, name
}

// linkTo returns the link to a member. It is relative, and begins with ./ because a name may have a colon. What the page
// would have as a character reference is escaped, since not each program that reads the page knows these.
func linkTo(name string) string {
	return "./" + strings.NewReplacer("+", "%2B", "&", "%26").Replace(url.PathEscape(name))
}

// rowOf returns what the page shows of a member.
func rowOf(m member) row {
	r := row{Kind: "file", Name: m.Name(), Link: linkTo(m.Name())}
	if m.IsCollection {
		r.Kind = "folder"
		r.Name += "/"
		r.Link += "/"
	} else {
		r.Bytes, r.Size, r.Exact = m.Length, size.Readable(m.Length), size.Exact(m.Length)
	}
	if !m.Modified.IsZero() {
		modified := m.Modified.UTC()
		r.Modified, r.Date, r.Clock = modified.Format(time.RFC3339), modified.Format("2006-01-02"), modified.Format("15:04")
	}
	return r
}

// countOf says how many collections and files there are.
func countOf(members []member) string {
	folders := 0
	for _, m := range members {
		if m.IsCollection {
			folders++
		}
	}
	files := len(members) - folders
	switch {
	case folders == 0:
		return counted(files, "file")
	case files == 0:
		return counted(folders, "folder")
	}
	return counted(folders, "folder") + ", " + counted(files, "file")
}

func counted(n int, noun string) string {
	if n == 1 {
		return "1 " + noun
	}
	return strconv.Itoa(n) + " " + noun + "s"
}
