package limit

import (
	"bufio"
	"errors"
	"fmt"
	"io"
	"net"
	"net/http"
	"net/http/httptest"
	"os"
	"testing"
	"time"
)

func TestUnread(t *testing.T) {
	tests := []struct {
		name, head string
		reads      bool
		isClosed   bool
	}{
		{"a rest that does not come", "Content-Length: 9\r\n\r\nfour", false, true},
		{"a rest in chunks that does not come", "Transfer-Encoding: chunked\r\n\r\n4\r\nfour\r\n", false, true},
		{"a rest that comes", "Content-Length: 4\r\n\r\nfour", false, false},
		{"a body that is read", "Content-Length: 4\r\n\r\nfour", true, false},
		{"no body", "\r\n", false, false},
	}
	for _, test := range tests {
		t.Run(test.name, func(t *testing.T) {
			c := unread(t, 100*time.Millisecond, test.head, func(w http.ResponseWriter, r *http.Request) {
				if test.reads {
					io.Copy(io.Discard, r.Body)
				}
				w.WriteHeader(http.StatusNoContent)
			})
			c.SetReadDeadline(time.Now().Add(time.Second))
			_, err := io.Copy(io.Discard, c)
			if isOpen := errors.Is(err, os.ErrDeadlineExceeded); isOpen == test.isClosed {
				t.Errorf("after a second the connection is open: %v", isOpen)
			}
		})
	}
}

func TestUnreadLeavesExpectToTheServer(t *testing.T) {
	head := "Content-Length: 9\r\nExpect: 100-continue\r\n\r\n"
	c := unread(t, time.Minute, head, func(w http.ResponseWriter, r *http.Request) {
		w.WriteHeader(http.StatusRequestEntityTooLarge)
	})
	c.SetReadDeadline(time.Now().Add(5 * time.Second))
	answer, err := http.ReadResponse(bufio.NewReader(c), nil)
	if err != nil || answer.StatusCode != http.StatusRequestEntityTooLarge {
		t.Errorf("the answer is %v, error %v", answer, err)
	}
}

// unread sends a PUT to a server of this handler. The head begins after the field Host.
func unread(t *testing.T, d time.Duration, head string, handler http.HandlerFunc) net.Conn {
	t.Helper()
	server := httptest.NewUnstartedServer(Unread(d, handler))
	server.Config.ConnContext = ConnContext
	server.Start()
	t.Cleanup(server.Close)
	c, err := net.Dial("tcp", server.Listener.Addr().String())
	if err != nil {
		t.Fatal(err)
	}
	t.Cleanup(func() { c.Close() })
	fmt.Fprintf(c, "PUT / HTTP/1.1\r\nHost: h\r\n%s", head)
	return c
}
