package davd

import (
	"context"
	"encoding/binary"
	"fmt"
	"io"
	"os"
	"strconv"
	"strings"
	"testing"
	"time"
)

// The test program is also a davd that the tests start: it behaves as the variable says.
const behavior = "FAKE_DAVD"

func TestMain(m *testing.M) {
	if how := os.Getenv(behavior); how != "" {
		fake(how)
		return
	}
	os.Exit(m.Run())
}

// fake reads batches and writes replies, until its input ends or its behavior says otherwise.
func fake(how string) {
	if acts := strings.TrimPrefix(how, "folder: "); acts != how {
		fakeOver(fakeFolder(os.Args[len(os.Args)-1]), strings.Split(acts, ", "))
	}
	for count := 1; ; count++ {
		number, frames := readBatch()
		switch {
		case how == "mute":
			continue
		case how == "ends after one" && count == 2, how == "ends":
			os.Exit(3)
		case how == "garbage":
			os.Stdout.WriteString("this is not a batch of replies")
		case how == "wrong number":
			writeReplies(number+1, 200, nil)
		case how == "lost count":
			writeReplies(number-1, 409, nil)
		case how == "no memory for a drop" && frames[0][0] == 3 && count < 5:
			writeReplies(number, 507, nil)
		case how == "no memory for a drop" && frames[0][0] == 3:
			os.Stderr.WriteString("a body is dropped\n")
			writeReplies(number, 200, replies(frames))
		case how == "no memory for an end" && frames[0][0] == 8 && count < 5:
			writeReplies(number, 507, nil)
		case how == "no memory":
			writeReplies(number, 507, nil)
		case how == "too few":
			writeReplies(number, 200, replies(frames[1:]))
		case how == "mute after one" && count > 1:
			continue
		case how == "half" && len(frames) > 1:
			writeReplies(number, 200, replies(frames), 1)
			os.Exit(3)
		case how == "no memory for a request" && len(frames) > 1:
			writeReplies(number, 507, nil)
		case how == "no memory for a piece":
			writeReplies(number, 200, withoutPieces(frames))
		case how == "too many":
			writeReplies(number, 200, append(replies(frames), replies(frames)...))
		case how == "shows drops", how == "no memory for a request":
			for _, f := range frames {
				if f[0] == 3 {
					os.Stderr.WriteString("a body is dropped, frame " + strconv.Itoa(len(frames)) + " of a batch\n")
				}
			}
			writeReplies(number, 200, replies(frames))
		case how == "shows its limit":
			os.Stderr.WriteString(kindsOf(frames) + " under " + limitOfSelf() + "\n")
			time.Sleep(5 * time.Millisecond)
			writeReplies(number, 200, replies(frames))
		case how == "no memory for what it holds" && frames[0][0] == 3:
			writeReplies(number, 507, nil)
		case how == "slow":
			time.Sleep(20 * time.Millisecond)
			writeReplies(number, 200, replies(frames))
		default:
			writeReplies(number, 200, replies(frames))
		}
	}
}

// kindsOf returns the first byte of each frame, such as [0 0 6].
func kindsOf(frames [][]byte) string {
	var kinds []int
	for _, f := range frames {
		kinds = append(kinds, int(f[0]))
	}
	return fmt.Sprint(kinds)
}

// limitOfSelf returns the limit of the address space of this process, in bytes.
func limitOfSelf() string {
	text, err := os.ReadFile("/proc/self/limits")
	if err != nil {
		return err.Error()
	}
	_, rest, _ := strings.Cut(string(text), "Max address space")
	return strings.Fields(rest)[0]
}

// readBatch reads a batch of frames. It ends the program at the end of the input.
func readBatch() (number uint64, frames [][]byte) {
	var header [24]byte
	if _, err := io.ReadFull(os.Stdin, header[:]); err != nil {
		os.Exit(0)
	}
	if now := binary.BigEndian.Uint64(header[8:]); now > fakeTime {
		fakeTime = now
	}
	content := make([]byte, binary.BigEndian.Uint64(header[16:]))
	if _, err := io.ReadFull(os.Stdin, content); err != nil {
		os.Exit(3)
	}
	if len(content) == 0 {
		return binary.BigEndian.Uint64(header[:]), nil
	}
	count := binary.BigEndian.Uint64(content)
	for content = content[8:]; count > 0; count-- {
		end := 8 + binary.BigEndian.Uint64(content)
		frames = append(frames, content[8:end])
		content = content[end:]
	}
	return binary.BigEndian.Uint64(header[:]), frames
}

// fakeTime is the time of a fake davd, which is that of the latest batch.
var fakeTime uint64

// replies answers frames. A quota's used bytes are the number of this process, the greatest how many frames came with
// this one.
func replies(frames [][]byte) [][]byte {
	var all [][]byte
	for _, f := range frames {
		var reply []byte
		switch f[0] {
		case 0: // a request: a response with the access rules in the field rights
			reply = binary.BigEndian.AppendUint64(append(numbered(0, fakeStatus(f)), 0), 1)
			reply = append(appendText(appendText(reply, "rights"), fakeRights), 0)
		case 1:
			reply = numbered(1, uint64(os.Getpid()))
		case 2, 3, 7, 8:
			reply = []byte{2}
		case 5: // A lock expires in a second.
			reply = binary.BigEndian.AppendUint64([]byte{5, 1}, fakeTime+1)
		case 6:
			reply = append(numbered(6, uint64(len(frames))), 1)
			reply = append(binary.BigEndian.AppendUint64(reply, uint64(os.Getpid())), 0)
		case 9:
			reply = setFakeRights(string(f[9:]))
		case 10: // Rule 3 allows to list and to read.
			reply = append(binary.BigEndian.AppendUint64([]byte{9, 1}, 3), 1, 1, 0)
		case 11:
			reply = fakeLocks()
		case 12, 13:
			reply = fakeChange(f)
		default:
			reply = numbered(7, 404)
		}
		all = append(all, reply)
	}
	return all
}

// fakeStatus returns the status of the response to a request: 200 to a LOCK, and 201 to others.
func fakeStatus(f []byte) uint64 {
	if strings.HasPrefix(string(f[9:]), "LOCK") {
		return 200
	}
	return 201
}

// withoutPieces answers frames as a davd that has no memory for a piece: the request with its body fails.
func withoutPieces(frames [][]byte) [][]byte {
	all := replies(frames)
	for i, f := range frames {
		if f[0] == 2 {
			all[i] = numbered(7, 507)
		}
		if f[0] == 0 && i > 0 {
			all[i] = append(numbered(0, 400), make([]byte, 10)...)
		}
	}
	return all
}

// fakeLocks lists two locks.
func fakeLocks() []byte {
	reply := appendText(appendText(numbered(10, 2), "urn:1"), "/a%20b")
	reply = append(appendText(append(reply, 1), "ada"), 1, 0, 1)
	reply = binary.BigEndian.AppendUint64(reply, 60)
	return append(appendText(appendText(reply, "urn:2"), "/"), 0, 0, 1, 0)
}

// fakeChange answers a frame about a path, which says what the reply is.
func fakeChange(f []byte) []byte {
	end := 9 + binary.BigEndian.Uint64(f[1:])
	switch string(f[9:end]) {
	case "/none":
		return numbered(7, 404)
	case "/wrong":
		return []byte{4}
	}
	return []byte{2}
}

// fakeRights is the text of the access rules of a fake davd.
var fakeRights string

// setFakeRights answers a text of access rules, which may say what is wrong with it.
func setFakeRights(text string) []byte {
	switch {
	case text == "ends":
		os.Exit(3)
	case fakeRights == "no operator" && text != fakeRights:
		return numbered(7, 507)
	case text == "once" && fakeRights != "":
		return numbered(7, 507)
	case text == "no memory":
		return numbered(7, 507)
	case text == "an unknown frame":
		return numbered(7, 400)
	case text == "a wrong reply":
		return []byte{4}
	case strings.HasPrefix(text, "refused"):
		return appendText([]byte{8}, "line 1: "+text)
	}
	fakeRights = text
	return []byte{2}
}

func appendText(b []byte, text string) []byte {
	return append(binary.BigEndian.AppendUint64(b, uint64(len(text))), text...)
}

func numbered(kind byte, n uint64) []byte {
	return binary.BigEndian.AppendUint64([]byte{kind}, n)
}

// writeReplies writes a batch of replies, or breaks off after the first ones.
func writeReplies(number, status uint64, replies [][]byte, first ...int) {
	b := binary.BigEndian.AppendUint64(nil, number)
	b = binary.BigEndian.AppendUint64(b, status)
	b = binary.BigEndian.AppendUint64(b, uint64(len(replies)))
	if len(first) == 1 {
		replies = replies[:first[0]]
	}
	for _, reply := range replies {
		b = append(binary.BigEndian.AppendUint64(b, uint64(len(reply))), reply...)
	}
	os.Stdout.Write(b)
}

// startFake starts an engine over a fake davd, which is started again at once.
func startFake(t *testing.T, how string) (*Engine, *logged) {
	t.Helper()
	return startProgram(t, os.Args[0], how)
}

func startProgram(t *testing.T, program, how string) (*Engine, *logged) {
	t.Helper()
	t.Setenv(behavior, how)
	said := &logged{}
	quick := pauses{first: time.Millisecond, greatest: 10 * time.Millisecond}
	engine, err := Start(context.Background(), Config{Program: program, Log: said.logger(), pauses: quick})
	if err != nil {
		t.Fatal(err)
	}
	t.Cleanup(func() { closeSoon(t, engine) })
	return engine, said
}
