package auth_test

import (
	"bytes"
	"io"
	"log"
	"net/http"
	"net/http/httptest"
	"os"
	"path/filepath"
	"regexp"
	"strings"
	"testing"

	"davserve/internal/accesslog"
	"davserve/internal/auth"
	"davserve/internal/caller"
	"davserve/internal/cors"
	"davserve/internal/limit"
	"davserve/internal/share"

	"golang.org/x/crypto/bcrypt"
)

// chain builds what a server has around its handler: limits, log, health, CORS, users.
func chain(t *testing.T, logged io.Writer) http.Handler {
	t.Helper()
	hash, err := bcrypt.GenerateFromPassword([]byte("secret"), bcrypt.MinCost)
	if err != nil {
		t.Fatal(err)
	}
	path := filepath.Join(t.TempDir(), "users")
	if err := os.WriteFile(path, []byte("alice:"+string(hash)+"\n"), 0o600); err != nil {
		t.Fatal(err)
	}
	users, err := auth.Load(path)
	if err != nil {
		t.Fatal(err)
	}
	basic, err := auth.NewBasic(users, "dav", 64)
	if err != nil {
		t.Fatal(err)
	}
	dav := http.HandlerFunc(func(w http.ResponseWriter, r *http.Request) {
		name, _ := auth.User(r.Context())
		accesslog.SetUser(r.Context(), name)
		io.WriteString(w, "hello "+name)
	})
	withCORS, err := cors.New([]string{"https://app.example"}, basic.Handler(dav))
	if err != nil {
		t.Fatal(err)
	}
	mux := http.NewServeMux()
	mux.HandleFunc("/-/health", func(w http.ResponseWriter, r *http.Request) { io.WriteString(w, "ok") })
	mux.Handle("/", withCORS)
	keyOf := func(r *http.Request) share.Key { return caller.Key(caller.Parse(r.RemoteAddr)) }
	return limit.Requests(share.NewPool(8, 50, 8), 0, keyOf, accesslog.New(log.New(logged, "", 0), mux))
}

func TestChain(t *testing.T) {
	var logged bytes.Buffer
	server := httptest.NewServer(chain(t, &logged))
	defer server.Close()
	tests := []struct {
		method, path, password, origin string
		want                           int
		body, line                     string
	}{
		{"GET", "/-/health", "", "", 200, "ok", `- GET "/-/health" 200 2`},
		{"GET", "/a", "", "", 401, "unauthorized\n", `- GET "/a" 401 13`},
		{"GET", "/a", "wrong", "https://app.example", 401, "unauthorized\n", `- GET "/a" 401 13`},
		{"GET", "/a", "secret", "", 200, "hello alice", `"alice" GET "/a" 200 11`},
		{"OPTIONS", "/a", "", "https://app.example", 204, "", `- OPTIONS "/a" 204 0`},
		{"OPTIONS", "/a", "", "https://evil.example", 401, "unauthorized\n", `- OPTIONS "/a" 401 13`},
		{"PROPFIND", "/a", "secret", "https://app.example", 200, "hello alice", `"alice" PROPFIND "/a" 200 11`},
	}
	for _, test := range tests {
		r, err := http.NewRequest(test.method, server.URL+test.path, nil)
		if err != nil {
			t.Fatal(err)
		}
		if test.password != "" {
			r.SetBasicAuth("alice", test.password)
		}
		if test.origin != "" {
			r.Header.Set("Origin", test.origin)
			r.Header.Set("Access-Control-Request-Method", "PUT")
		}
		response, err := server.Client().Do(r)
		if err != nil {
			t.Fatal(err)
		}
		body, err := io.ReadAll(response.Body)
		response.Body.Close()
		if err != nil || response.StatusCode != test.want || string(body) != test.body {
			t.Errorf("%s %s: status %d, %q, %v", test.method, test.path, response.StatusCode, body, err)
		}
		allowed := response.Header.Get("Access-Control-Allow-Origin") != ""
		if allowed != (test.origin == "https://app.example") {
			t.Errorf("%s %s of %q: allowed %v", test.method, test.path, test.origin, allowed)
		}
	}
	server.Close()
	lines := strings.Split(strings.TrimSuffix(logged.String(), "\n"), "\n")
	if len(lines) != len(tests) {
		t.Fatalf("%d lines", len(lines))
	}
	for i, test := range tests {
		want := regexp.MustCompile(`^127\.0\.0\.1:\d+ ` + regexp.QuoteMeta(test.line) + ` \S+s$`)
		if !want.MatchString(lines[i]) {
			t.Errorf("line %q, want %q", lines[i], test.line)
		}
	}
}
