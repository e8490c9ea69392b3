package metrics

import (
	"io"
	"net"
	"testing"
)

func TestTrafficCountsConnectionsAndBytes(t *testing.T) {
	var traffic Traffic
	inner, err := net.Listen("tcp", "127.0.0.1:0")
	if err != nil {
		t.Fatal(err)
	}
	l := traffic.Listener(inner)
	client, err := net.Dial("tcp", l.Addr().String())
	if err != nil {
		t.Fatal(err)
	}
	defer client.Close()
	server, err := l.Accept()
	if err != nil {
		t.Fatal(err)
	}
	io.WriteString(client, "hello")
	client.(*net.TCPConn).CloseWrite()
	if _, err := io.ReadAll(server); err != nil {
		t.Fatal(err)
	}
	io.WriteString(server, "hello, world")
	if got := traffic.Open(); got != 1 {
		t.Errorf("%d connections are open", got)
	}
	if err := server.(interface{ CloseWrite() error }).CloseWrite(); err != nil {
		t.Errorf("CloseWrite: %v", err)
	}
	if text, err := io.ReadAll(client); err != nil || string(text) != "hello, world" {
		t.Errorf("the client gets %q, %v", text, err)
	}
	server.Close()
	server.Close()
	got := [4]uint64{traffic.Accepted.Value(), traffic.Received.Value(), traffic.Sent.Value(), uint64(traffic.Open())}
	if want := [4]uint64{1, 5, 12, 0}; got != want {
		t.Errorf("accepted, received, sent and open are %v, want %v", got, want)
	}
	l.Close()
	if _, err := l.Accept(); err == nil {
		t.Error("a closed listener accepts")
	}
	if got := traffic.Accepted.Value(); got != 1 {
		t.Errorf("%d connections were accepted", got)
	}
}
