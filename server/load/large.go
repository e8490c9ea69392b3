package main

import (
	"bytes"
	"context"
	"errors"
	"fmt"
	"io"
	"math/rand"
	"net/http"
	"strconv"
	"syscall"
	"time"
)

const (
	largePath = "/load/large"
	// largeTime is how long a server may take for the whole file.
	largeTime = 10 * time.Minute
	// largePiece is how many bytes of the file are sent or received at once.
	largePiece = 256 << 10
	// period is after how many bytes the content of the file repeats. It is odd, so that no two blocks of a server are
	// the same.
	period = 1<<20 - 3
	// otherBytes is the name under which a GET is counted that returned other bytes than those of the file.
	otherBytes = "other bytes"
)

// synced is a PUT, and the time until everything that was written is on the disk.
const synced kind = "put and sync"

// largeKinds are the kinds of the rows of a server, in this order.
var largeKinds = []kind{put, synced, get}

// A content is the bytes of a large file. They repeat, so that few of them are in memory.
type content struct {
	twice []byte
	size  int64
}

func newContent(size, seed int64) content {
	once := make([]byte, period)
	rand.New(rand.NewSource(seed)).Read(once)
	return content{twice: append(once, once...), size: size}
}

// at returns a piece from a place on. It is shorter only at the end.
func (c content) at(place int64) []byte {
	first, length := place%period, c.size-place
	if length > largePiece {
		length = largePiece
	}
	return c.twice[first : first+length]
}

func (c content) send(to io.Writer) error {
	for place := int64(0); place < c.size; place += largePiece {
		if _, err := to.Write(c.at(place)); err != nil {
			return err
		}
	}
	return nil
}

// A comparison compares what is written to it with a content: each byte, which takes less time than a digest of them.
type comparison struct {
	content
	place   int64 // up to it, everything was equal
	differs bool
}

func (c *comparison) Write(received []byte) (int, error) {
	for rest := received; len(rest) > 0 && !c.differs; {
		wanted := c.at(c.place)
		if len(wanted) > len(rest) {
			wanted = wanted[:len(rest)]
		}
		c.differs = len(wanted) == 0 || !bytes.Equal(wanted, rest[:len(wanted)])
		c.place += int64(len(wanted))
		rest = rest[len(wanted):]
	}
	return len(received), nil
}

func (c *comparison) isEqual() bool { return !c.differs && c.place == c.size }

// measureLarge measures a PUT and then a GET of one file on each server, in several rounds. The rates of its rows are
// in MB a second. Each server has a row of each of the largeKinds.
func measureLarge(ctx context.Context, o options, progress io.Writer) ([]*row, error) {
	var rows []*row
	for _, s := range o.servers {
		for _, k := range largeKinds {
			rows = append(rows, &row{kind: k, connections: 1, server: s.name})
		}
	}
	for round := 0; round < o.rounds; round++ {
		for _, i := range orderOf(round, len(o.servers)) {
			own := rows[i*len(largeKinds) : (i+1)*len(largeKinds)]
			file := newContent(o.size, int64(round*len(o.servers)+i))
			if err := measureFile(o.servers[i], file, own[0], own[1], own[2], progress); err != nil {
				return nil, err
			}
			if err := ctx.Err(); err != nil {
				return nil, err
			}
		}
	}
	return rows, nil
}

// measureFile stores a file, reads it, and removes it. What was written before is on the disk first.
func measureFile(s server, file content, stored, kept, loaded *row, progress io.Writer) error {
	syscall.Sync()
	began := time.Now()
	status, err := sendLarge(s, file)
	if !stored.addLarge(file.size, status, time.Since(began), err, progress) {
		return nil
	}
	syscall.Sync()
	kept.addLarge(file.size, status, time.Since(began), nil, progress)
	began = time.Now()
	status, err = receiveLarge(s, file)
	loaded.addLarge(file.size, status, time.Since(began), err, progress)
	return sendAll(s, []request{newRequest(s, http.MethodDelete, largePath, nil)})
}

// errDiffers says that a response has not the bytes of the file.
var errDiffers = errors.New("the response has other bytes")

// addLarge adds the result of a round, and returns whether it is a success.
func (r *row) addLarge(size int64, status int, took time.Duration, err error, progress io.Writer) bool {
	if errors.Is(err, errDiffers) {
		r.fail(otherBytes, 1)
	} else {
		r.add(status, took, err)
	}
	if err != nil || !isSuccess(status) {
		fmt.Fprintf(progress, "%s %s: %d, %v\n", r.kind, r.server, status, err)
		return false
	}
	r.rates = append(r.rates, float64(size)/1e6/took.Seconds())
	fmt.Fprintf(progress, "%s %s: %.0f MB/s\n", r.kind, r.server, r.rates[len(r.rates)-1])
	return true
}

// sendLarge stores the file, and returns the status.
func sendLarge(s server, file content) (int, error) {
	length := "Content-Length: " + strconv.FormatInt(file.size, 10)
	return doLarge(s, newRequest(s, http.MethodPut, largePath, nil, length), file.send, io.Discard)
}

// receiveLarge reads the file, and returns the status. The error is errDiffers if the response has other bytes.
func receiveLarge(s server, file content) (int, error) {
	received := &comparison{content: file}
	none := func(io.Writer) error { return nil }
	status, err := doLarge(s, newRequest(s, http.MethodGet, largePath, nil), none, received)
	if err == nil && isSuccess(status) && !received.isEqual() {
		err = errDiffers
	}
	return status, err
}

// doLarge sends a request and a body on a connection of its own, passes on the body of the response, and returns the
// status.
func doLarge(s server, r request, send func(io.Writer) error, to io.Writer) (int, error) {
	c := connection{address: s.address, deadline: time.Now().Add(largeTime), buffer: make([]byte, largePiece)}
	defer c.close()
	if err := c.open(); err != nil {
		return 0, err
	}
	if _, err := c.conn.Write(r.head); err != nil {
		return 0, err
	}
	_ = send(c.conn) // If the server answers before it has the whole body, the response says why.
	status, _, err := c.readResponse(to)
	return status, err
}
