package davserve

import (
	"bytes"
	"context"
	"encoding/json"
	"errors"
	"log"
	"net/http/httptest"
	"reflect"
	"strings"
	"testing"
	"time"

	"davserve/internal/frame"
)

func TestALockAsProgramsGetIt(t *testing.T) {
	name, second, late := "ada", uint64(1_000_000_000), uint64(1<<64-1)
	last := uint64(lastSecond)
	moment, end := time.Unix(1_000_000_000, 0).UTC(), time.Date(9999, 12, 31, 23, 59, 59, 0, time.UTC)
	tests := []struct {
		lock frame.Lock
		want Lock
		json string
	}{
		{
			frame.Lock{Token: "urn:1", Path: "/a%20b", Principal: &name, Deep: true, Expires: &second},
			Lock{Token: "urn:1", Path: "/a%20b", Principal: &name, Deep: true, Expires: &moment},
			`{"token":"urn:1","path":"/a%20b","principal":"ada","deep":true,"shared":false,"expires":"2001-09-09T01:46:40Z"}`,
		},
		{
			frame.Lock{Token: "urn:2", Path: "/", Shared: true},
			Lock{Token: "urn:2", Path: "/", Shared: true},
			`{"token":"urn:2","path":"/","principal":null,"deep":false,"shared":true,"expires":null}`,
		},
		{
			frame.Lock{Token: "urn:3", Path: "/", Expires: &last},
			Lock{Token: "urn:3", Path: "/", Expires: &end},
			`{"token":"urn:3","path":"/","principal":null,"deep":false,"shared":false,"expires":"9999-12-31T23:59:59Z"}`,
		},
		{
			frame.Lock{Token: "urn:4", Path: "/", Expires: &late},
			Lock{Token: "urn:4", Path: "/"},
			`{"token":"urn:4","path":"/","principal":null,"deep":false,"shared":false,"expires":null}`,
		},
	}
	for _, test := range tests {
		got := lockOf(test.lock)
		if !reflect.DeepEqual(got, test.want) {
			t.Errorf("%+v: %+v, want %+v", test.lock, got, test.want)
		}
		if text, err := json.Marshal(got); err != nil || string(text) != test.json {
			t.Errorf("%+v: %s, %v, want %s", test.lock, text, err, test.json)
		}
	}
}

// lockBody is the body of a LOCK with which a client locks a resource for itself.
const lockBody = `<lockinfo xmlns="DAV:"><lockscope><exclusive/></lockscope><locktype><write/></locktype></lockinfo>`

// lock locks a resource, and returns the token.
func lock(t *testing.T, handler *Handler, path string) string {
	t.Helper()
	request := httptest.NewRequest("LOCK", path, strings.NewReader(lockBody))
	request.Header.Set("Timeout", "Second-300")
	recorder := httptest.NewRecorder()
	handler.ServeHTTP(recorder, request)
	if recorder.Code != 200 && recorder.Code != 201 {
		t.Fatalf("LOCK %s: status %d", path, recorder.Code)
	}
	return strings.Trim(recorder.Header().Get("Lock-Token"), "<>")
}

func TestLocksAreListedAndRemoved(t *testing.T) {
	for name, folder := range map[string]string{"in memory": "", "over a folder": t.TempDir()} {
		t.Run(name, func(t *testing.T) {
			handler := startHandler(t, Options{Folder: folder, Prefix: "/dav"})
			var said bytes.Buffer
			handler.options.Log = log.New(&said, "", 0)
			ctx := context.Background()
			put(t, handler, "/dav/a%20b", "x")
			one, two := lock(t, handler, "/dav/a%20b"), lock(t, handler, "/dav/new")
			locks, err := handler.Locks(ctx)
			if err != nil || len(locks) != 2 || locks[0].Token != one || locks[1].Token != two {
				t.Fatalf("Locks: %+v, %v", locks, err)
			}
			if got := locks[0]; got.Path != "/dav/a%20b" || got.Principal != nil || got.Shared || got.Expires == nil {
				t.Errorf("Locks: %+v", got)
			}
			if err := handler.RemoveLock(ctx, one); err != nil {
				t.Fatalf("RemoveLock: %v", err)
			}
			if want := "the lock \"" + one + "\" of a request without a user at \"/dav/a%20b\" is removed\n"; said.String() != want {
				t.Errorf("the log is %q, want %q", said.String(), want)
			}
			put(t, handler, "/dav/a%20b", "y")
			for _, token := range []string{one, "urn:none", ""} {
				if err := handler.RemoveLock(ctx, token); !errors.Is(err, ErrNoLock) {
					t.Errorf("RemoveLock of %q: %v", token, err)
				}
			}
			if locks, err := handler.Locks(ctx); err != nil || len(locks) != 1 || locks[0].Token != two {
				t.Errorf("Locks: %+v, %v", locks, err)
			}
		})
	}
}
