package davserve

import (
	"context"
	"io"
	"net/http"
	"net/http/httptest"
	"strings"
	"sync/atomic"
	"testing"
	"time"
)

// A watchedBody notes whether it is read.
type watchedBody struct {
	io.Reader
	read atomic.Bool
}

// Read implements io.Reader.
func (b *watchedBody) Read(p []byte) (int, error) {
	b.read.Store(true)
	return b.Reader.Read(p)
}

// upload sends a PUT whose client waits for 100 Continue, and returns the status and whether the body was sent.
func upload(t *testing.T, url string, length int) (status int, sent bool) {
	t.Helper()
	body := &watchedBody{Reader: strings.NewReader(strings.Repeat("x", length))}
	request, err := http.NewRequest(http.MethodPut, url, body)
	if err != nil {
		t.Fatal(err)
	}
	request.ContentLength = int64(length)
	request.Header.Set("Expect", "100-continue")
	client := http.Client{Transport: &http.Transport{ExpectContinueTimeout: time.Minute, DisableKeepAlives: true}}
	response, err := client.Do(request)
	if err != nil {
		t.Fatal(err)
	}
	defer response.Body.Close()
	return response.StatusCode, body.read.Load()
}

func TestUploadsAreRefusedBeforeTheirBody(t *testing.T) {
	rules := readOnly + "[[rule]]\neveryone = true\nat_and_below = \"/in\"\nallow = [\"list\", \"read\", \"write\"]\n"
	handler := startHandler(t, Options{Rights: rules, Quota: 1 << 20})
	if got := statusOf(handler, "MKCOL", "/in"); got != 201 {
		t.Fatalf("MKCOL is %d", got)
	}
	server := httptest.NewServer(handler)
	defer server.Close()
	for _, test := range []struct {
		path   string
		length int
		status int
		sent   bool
	}{
		{"/a", 5, 403, false},
		{"/a", 2 * piece, 403, false},
		{"/in/a", 5, 201, true},
		{"/in/a", 2 * piece, 204, true},
		{"/in/b", 1 << 20, 507, false},
		{"/in/a", 1 << 20, 204, true},
		{"/in/a", 1<<20 + 1, 507, false},
	} {
		status, sent := upload(t, server.URL+test.path, test.length)
		if status != test.status || sent != test.sent {
			t.Errorf("%d bytes to %s: %d, and the body was sent: %t; want %d and %t",
				test.length, test.path, status, sent, test.status, test.sent)
		}
	}
	if used, err := handler.used(context.Background()); err != nil || used != 1<<20 {
		t.Errorf("%d bytes are used: %v", used, err)
	}
}
