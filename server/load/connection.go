package main

import (
	"bufio"
	"errors"
	"fmt"
	"io"
	"net"
	"net/http"
	"strconv"
	"time"
)

// answerTime is how long a server may take for an answer before its connection counts as failed.
const answerTime = 20 * time.Second

// A request is a request as it is sent. Each may be sent any number of times, and on several connections at once.
type request struct {
	head, body []byte
}

// newRequest makes a request for a path of a server. The fields are whole lines without their ends.
func newRequest(s server, method, path string, body []byte, fields ...string) request {
	head := method + " " + s.base + path + " HTTP/1.1\r\nHost: " + s.address + "\r\n"
	for _, field := range fields {
		head += field + "\r\n"
	}
	if body != nil {
		head += "Content-Length: " + strconv.Itoa(len(body)) + "\r\n"
	}
	return request{head: []byte(head + "\r\n"), body: body}
}

// A connection sends one request after the other to a server. It is opened again after the server has closed it.
//
// It is less work than an http.Client: a request is bytes that exist already, and no other goroutine takes part. The
// servers that are measured share the processors with this program.
type connection struct {
	address  string
	deadline time.Time // after it, everything fails
	conn     net.Conn
	reader   *bufio.Reader
	buffer   []byte // for the body of a response that is passed on, or nil
}

// do sends a request, reads the whole response, and returns its status. If the server has closed the connection since
// the response before, it sends the request once more, as clients do (RFC 9112, section 9.3.1).
func (c *connection) do(r request) (int, error) {
	isUsed := c.conn != nil
	status, err := c.try(r)
	if isUsed && errors.Is(err, errClosed) {
		return c.try(r)
	}
	return status, err
}

// errClosed says that not even the first byte of a response came.
var errClosed = errors.New("the connection ended before the response")

func (c *connection) try(r request) (int, error) {
	if c.conn == nil {
		if err := c.open(); err != nil {
			return 0, err
		}
	}
	buffers := net.Buffers{r.head, r.body}
	_, sendErr := buffers.WriteTo(c.conn)
	// A server may answer before it has the whole body, and close the connection. The response says why.
	status, keep, err := c.readResponse(io.Discard)
	if err != nil || sendErr != nil || !keep {
		c.close()
	}
	return status, err
}

func (c *connection) open() error {
	dialer := net.Dialer{Deadline: c.deadline}
	conn, err := dialer.Dial("tcp", c.address)
	if err != nil {
		return err
	}
	if err := conn.SetDeadline(c.deadline); err != nil {
		conn.Close()
		return err
	}
	c.conn, c.reader = conn, bufio.NewReaderSize(conn, 16<<10)
	return nil
}

// readResponse reads a response, and passes on its body.
func (c *connection) readResponse(to io.Writer) (status int, keep bool, err error) {
	if _, err := c.reader.Peek(1); err != nil {
		return 0, false, fmt.Errorf("%w: %v", errClosed, err)
	}
	for {
		a, err := http.ReadResponse(c.reader, nil)
		if err != nil {
			return 0, false, err
		}
		if a.StatusCode >= 100 && a.StatusCode < 200 && a.StatusCode != http.StatusSwitchingProtocols {
			continue
		}
		if _, err := io.CopyBuffer(to, a.Body, c.buffer); err != nil {
			return 0, false, fmt.Errorf("the body of a response: %w", err)
		}
		return a.StatusCode, !a.Close, nil
	}
}

func (c *connection) close() {
	if c.conn != nil {
		c.conn.Close()
		c.conn = nil
	}
}
