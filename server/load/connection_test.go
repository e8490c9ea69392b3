package main

import (
	"bufio"
	"io"
	"net"
	"net/http"
	"testing"
	"time"
)

func TestNewRequest(t *testing.T) {
	s := server{name: "a", address: "127.0.0.1:80", base: "/dav"}
	for _, c := range []struct {
		request request
		want    string
	}{
		{newRequest(s, "GET", "/f", nil), "GET /dav/f HTTP/1.1\r\nHost: 127.0.0.1:80\r\n\r\n"},
		{newRequest(s, "PUT", "/f", []byte("hi")),
			"PUT /dav/f HTTP/1.1\r\nHost: 127.0.0.1:80\r\nContent-Length: 2\r\n\r\nhi"},
		{newRequest(s, "DELETE", "/f", nil, "Depth: infinity"),
			"DELETE /dav/f HTTP/1.1\r\nHost: 127.0.0.1:80\r\nDepth: infinity\r\n\r\n"},
	} {
		if got := string(c.request.head) + string(c.request.body); got != c.want {
			t.Errorf("the request is %q, want %q", got, c.want)
		}
	}
}

// serve answers the requests of each connection with the responses in turn, and closes it after the last. An empty
// response means none, and keeps the connection open.
func serve(t *testing.T, connections ...[]string) string {
	t.Helper()
	listener, err := net.Listen("tcp", "127.0.0.1:0")
	if err != nil {
		t.Fatal(err)
	}
	t.Cleanup(func() { listener.Close() })
	go func() {
		for _, responses := range connections {
			conn, err := listener.Accept()
			if err != nil {
				return
			}
			answer(conn, responses)
		}
	}()
	return listener.Addr().String()
}

func answer(conn net.Conn, responses []string) {
	defer conn.Close()
	reader := bufio.NewReader(conn)
	for _, response := range responses {
		r, err := http.ReadRequest(reader)
		if err != nil {
			return
		}
		io.Copy(io.Discard, r.Body)
		io.WriteString(conn, response)
		if response == "" {
			http.ReadRequest(reader)
		}
	}
}

func TestConnection(t *testing.T) {
	const okay = "HTTP/1.1 200 OK\r\nContent-Length: 2\r\n\r\nhi"
	for _, c := range []struct {
		name        string
		connections [][]string
		want        []int // statuses; 0 is an error
	}{
		{"keeps the connection", [][]string{{okay, okay}}, []int{200, 200}},
		{"reads no further than the body", [][]string{{okay, "HTTP/1.1 204 No Content\r\n\r\n", okay}}, []int{200, 204, 200}},
		{"reads a body in chunks",
			[][]string{{"HTTP/1.1 207 M\r\nTransfer-Encoding: chunked\r\n\r\n2\r\nhi\r\n0\r\n\r\n", okay}}, []int{207, 200}},
		{"opens another after close",
			[][]string{{"HTTP/1.1 500 X\r\nConnection: close\r\n\r\nbye"}, {okay}}, []int{500, 200}},
		{"sends again after a connection that was closed silently", [][]string{{okay}, {okay}}, []int{200, 200}},
		{"sends again only once", [][]string{{okay}, {}, {okay}}, []int{200, 0, 200}},
		{"does not send again on a new connection", [][]string{{}, {okay}}, []int{0, 200}},
		{"skips 100", [][]string{{"HTTP/1.1 100 Continue\r\n\r\n" + okay, okay}}, []int{200, 200}},
		{"opens another after what is no response", [][]string{{"hello\r\n\r\n"}, {okay}}, []int{0, 200}},
		{"opens another after a body that ends early",
			[][]string{{"HTTP/1.1 200 OK\r\nConnection: close\r\nContent-Length: 3\r\n\r\nhi"}, {okay}}, []int{0, 200}},
	} {
		s := server{name: "a", address: serve(t, c.connections...)}
		conn := connection{address: s.address, deadline: time.Now().Add(2 * time.Second)}
		for i, want := range c.want {
			status, err := conn.do(newRequest(s, "PUT", "/f", []byte("body")))
			if status != want || (err != nil) != (want == 0) {
				t.Errorf("%s: request %d returns %d, %v, want %d", c.name, i, status, err, want)
			}
		}
		conn.close()
	}
}

func TestConnectionEndsAtDeadline(t *testing.T) {
	s := server{name: "a", address: serve(t, []string{""})}
	conn := connection{address: s.address, deadline: time.Now().Add(50 * time.Millisecond)}
	defer conn.close()
	if status, err := conn.do(newRequest(s, "GET", "/f", nil)); err == nil {
		t.Errorf("a server without a response returns %d", status)
	}
}
