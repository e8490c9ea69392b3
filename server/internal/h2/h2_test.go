package h2

import (
	"bytes"
	"crypto/tls"
	"io"
	"net"
	"net/http"
	"net/http/httptest"
	"sync/atomic"
	"testing"
	"time"

	"golang.org/x/net/http2"
	"golang.org/x/net/http2/hpack"

	"davserve/internal/limit"
)

// A client speaks HTTP/2 in frames.
type client struct {
	*http2.Framer
	conn   net.Conn
	header bytes.Buffer
	coder  *hpack.Encoder
	next   uint32
}

// served starts a server with the limits, and returns a client of it.
func served(t *testing.T, h http.HandlerFunc) *client {
	t.Helper()
	server := httptest.NewUnstartedServer(h)
	server.Config.ConnContext = limit.ConnContext
	server.TLS = &tls.Config{}
	server.Config.TLSConfig = server.TLS
	if err := Configure(server.Config); err != nil {
		t.Fatal(err)
	}
	server.StartTLS()
	t.Cleanup(server.Close)
	conn, err := tls.Dial("tcp", server.Listener.Addr().String(), &tls.Config{InsecureSkipVerify: true, NextProtos: []string{"h2"}})
	if err != nil {
		t.Fatal(err)
	}
	t.Cleanup(func() { conn.Close() })
	conn.SetDeadline(time.Now().Add(10 * time.Second))
	io.WriteString(conn, http2.ClientPreface)
	c := &client{Framer: http2.NewFramer(conn, conn), conn: conn, next: 1}
	c.coder = hpack.NewEncoder(&c.header)
	if err := c.WriteSettings(); err != nil {
		t.Fatal(err)
	}
	return c
}

// get begins a request and returns its stream.
func (c *client) get() uint32 {
	stream := c.next
	c.next += 2
	c.header.Reset()
	for _, field := range [][2]string{{":method", "GET"}, {":scheme", "https"}, {":path", "/"}, {":authority", "h"}} {
		c.coder.WriteField(hpack.HeaderField{Name: field[0], Value: field[1]})
	}
	c.WriteHeaders(http2.HeadersFrameParam{StreamID: stream, BlockFragment: c.header.Bytes(), EndStream: true, EndHeaders: true})
	return stream
}

// ends reads until the server closes the connection, or has answered a ping.
func (c *client) ends() bool {
	for {
		f, err := c.ReadFrame()
		if err != nil {
			return true
		}
		if ping, ok := f.(*http2.PingFrame); ok && ping.IsAck() && ping.Data[0] == 'e' {
			return false
		}
	}
}

func TestLimits(t *testing.T) {
	tests := []struct {
		name string
		most int // how often it may be done
		do   func(c *client)
	}{
		{"resets by the client", maxResets, func(c *client) { c.WriteRSTStream(c.get(), http2.ErrCodeCancel) }},
		{"resets by the server", maxResets, func(c *client) { c.WriteWindowUpdate(c.get(), 0) }},
		{"pings", maxControls - 2, func(c *client) { c.WritePing(false, [8]byte{}) }},
		{"settings", maxControls - 2, func(c *client) { c.WriteSettings() }},
		{"unknown frames", maxControls - 2, func(c *client) { c.WriteRawFrame(99, 0, 0, nil) }},
	}
	for _, test := range tests {
		for _, beyond := range []bool{false, true} {
			test, beyond := test, beyond
			name := test.name + ", as many as may be"
			if beyond {
				name = test.name + ", too many"
			}
			t.Run(name, func(t *testing.T) {
				c := served(t, func(w http.ResponseWriter, r *http.Request) { <-r.Context().Done() })
				count := test.most - 10
				if beyond {
					count = 3*test.most + 100 // Some come with time.
				}
				go func() {
					for i := 0; i < count; i++ {
						test.do(c)
					}
					c.WritePing(false, [8]byte{'e'})
				}()
				if c.ends() != beyond {
					t.Errorf("the connection was closed: %v", !beyond)
				}
			})
		}
	}
}

// However fast requests are reset, few handlers run for a connection.
func TestHandlersOfResets(t *testing.T) {
	var now, peak atomic.Int64
	release := make(chan struct{})
	c := served(t, func(w http.ResponseWriter, r *http.Request) {
		n := now.Add(1)
		for {
			most := peak.Load()
			if n <= most || peak.CompareAndSwap(most, n) {
				break
			}
		}
		<-release // It does not obey its context.
		now.Add(-1)
	})
	go func() {
		for i := 0; i < 10000; i++ {
			if c.WriteRSTStream(c.get(), http2.ErrCodeCancel) != nil {
				return
			}
		}
	}()
	if !c.ends() {
		t.Error("the connection stays open")
	}
	if n := peak.Load(); n > maxResets+Streams {
		t.Errorf("%d handlers at once", n)
	}
	close(release)
}

func TestContinuations(t *testing.T) {
	for _, count := range []int{maxContinuations, maxContinuations + 1} {
		var f frames
		f.maxBlock = 100 * frameSize
		err := f.see(rawFrame(http2.FrameHeaders, 10))
		for i := 0; i < count && err == nil; i++ {
			err = f.see(rawFrame(http2.FrameContinuation, 10))
		}
		if (err != nil) != (count > maxContinuations) {
			t.Errorf("%d frames: %v", count, err)
		}
	}
	c := served(t, nil)
	go func() {
		c.WriteHeaders(http2.HeadersFrameParam{StreamID: 1, BlockFragment: []byte{0x82}})
		for i := 0; i < 100; i++ {
			c.WriteContinuation(1, false, []byte{0x82})
		}
	}()
	if !c.ends() {
		t.Error("the connection stays open")
	}
}

// rawFrame is a frame whose payload has zeros.
func rawFrame(kind http2.FrameType, length int) []byte {
	var b bytes.Buffer
	http2.NewFramer(&b, nil).WriteRawFrame(kind, 0, 1, make([]byte, length))
	return b.Bytes()
}

// Frames are counted alike, in whatever pieces they come.
func TestPieces(t *testing.T) {
	now := time.Now()
	var all []byte
	for i := 0; i < 4; i++ {
		all = append(all, rawFrame(http2.FrameData, 1000)...)
		all = append(all, rawFrame(http2.FrameRSTStream, codeSize)...)
		all = append(all, rawFrame(http2.FramePing, 8)...)
		all = append(all, rawFrame(http2.FrameData, 0)...)
		all = append(all, rawFrame(http2.FrameWindowUpdate, 4)...)
	}
	for _, size := range []int{1, 2, 3, 7, 9, 13, 1000, len(all)} {
		clock := func() time.Time { return now }
		f := frames{resets: newBucket(100, 1, clock), controls: newBucket(100, 1, clock), maxBlock: 1 << 20}
		for rest := all; len(rest) > 0; {
			n := least(size, len(rest))
			if err := f.see(rest[:n]); err != nil {
				t.Fatal(err)
			}
			rest = rest[n:]
		}
		if f.resets.left != 96 || f.controls.left != 92 {
			t.Errorf("in pieces of %d: %v resets and %v other frames are left", size, f.resets.left, f.controls.left)
		}
	}
}

func TestBucket(t *testing.T) {
	now := time.Now()
	b := newBucket(2, 10, func() time.Time { return now })
	taken := func() (n int) {
		for b.take() {
			n++
		}
		return n
	}
	for _, step := range []struct {
		after time.Duration
		want  int
	}{{0, 2}, {0, 0}, {100 * time.Millisecond, 1}, {time.Hour, 2}} {
		now = now.Add(step.after)
		if got := taken(); got != step.want {
			t.Errorf("after %v: %d tokens, want %d", step.after, got, step.want)
		}
	}
}

func TestDisable(t *testing.T) {
	server := httptest.NewUnstartedServer(nil)
	Disable(server.Config)
	server.StartTLS()
	defer server.Close()
	conn, err := tls.Dial("tcp", server.Listener.Addr().String(), &tls.Config{InsecureSkipVerify: true, NextProtos: []string{"h2", "http/1.1"}})
	if err != nil {
		t.Fatal(err)
	}
	defer conn.Close()
	if got := conn.ConnectionState().NegotiatedProtocol; got == "h2" {
		t.Errorf("the protocol is %q", got)
	}
}

// The server announces its limits, and refuses a request beyond them.
func TestStreams(t *testing.T) {
	hold := make(chan struct{})
	var now atomic.Int64
	c := served(t, func(http.ResponseWriter, *http.Request) {
		now.Add(1)
		<-hold
	})
	want := map[http2.SettingID]uint32{
		http2.SettingMaxConcurrentStreams: Streams,
		http2.SettingInitialWindowSize:    uploadSize,
		http2.SettingMaxFrameSize:         frameSize,
	}
	f, err := c.ReadFrame()
	if err != nil {
		t.Fatal(err)
	}
	for id, value := range want {
		if got, _ := f.(*http2.SettingsFrame).Value(id); got != value {
			t.Errorf("%v is %d, want %d", id, got, value)
		}
	}
	c.WriteSettingsAck()
	var last uint32
	for i := 0; i <= Streams; i++ {
		last = c.get()
	}
	for {
		f, err := c.ReadFrame()
		if err != nil {
			t.Fatalf("the request beyond the limit is not refused: %v", err)
		}
		if reset, ok := f.(*http2.RSTStreamFrame); ok {
			if reset.StreamID != last {
				t.Errorf("stream %d is reset, want %d", reset.StreamID, last)
			}
			break
		}
	}
	if n := now.Load(); n > Streams {
		t.Errorf("%d requests are under way", n)
	}
	close(hold)
}
