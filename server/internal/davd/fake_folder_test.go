package davd

import (
	"context"
	"encoding/binary"
	"os"
	"path/filepath"
	"strconv"
	"strings"
	"testing"
	"time"
)

// A fakeFolder is what fake davds keep: numbers in files. The file last has the number of the last batch that was kept, and
// time its time, starts how many davds were started, and backup whether one is under way.
type fakeFolder string

// read returns the number in a file, or 0 if there is no file.
func (f fakeFolder) read(name string) (uint64, error) {
	text, err := os.ReadFile(filepath.Join(string(f), name))
	if err != nil {
		return 0, nil
	}
	return strconv.ParseUint(string(text), 10, 64)
}

func (f fakeFolder) get(name string) uint64 {
	n, err := f.read(name)
	if err != nil {
		panic(err)
	}
	return n
}

func (f fakeFolder) set(name string, n uint64) {
	if err := os.WriteFile(filepath.Join(string(f), name), []byte(strconv.FormatUint(n, 10)), 0o600); err != nil {
		panic(err)
	}
}

// fakeOver is a davd over a folder. Each start does the next of these acts, and further ones the last. "sound" keeps each
// batch and then answers it. The others do that too, except for what they say.
func fakeOver(folder fakeFolder, acts []string) {
	starts := int(folder.get("starts"))
	folder.set("starts", uint64(starts+1))
	folder.set("backup", 0)
	if starts >= len(acts) {
		starts = len(acts) - 1
	}
	if acts[starts] == "crashes" {
		fakeCrashing(folder)
	}
	act, status, _ := strings.Cut(acts[starts], " with ")
	exit, _ := strconv.Atoi(status)
	switch act {
	case "ends at the start":
		os.Exit(exit)
	case "forgets a batch":
		folder.set("last", folder.get("last")-1)
	}
	number, _ := readBatch()
	fakeTime = folder.get("time")
	greetHost(act, number, folder.get("last"))
	for {
		number, frames := readBatch()
		if isAsked(frames) {
			folder.set("last", number)
			answerTime(act, number, frames)
			continue
		}
		switch {
		case number != folder.get("last")+1:
			writeReplies(folder.get("last"), 409, nil)
			continue
		case act == "ends" && !isBegin(frames[0][0]), act == "ends for an operator" && len(frames) == 3 && frames[0][0] == 9:
			os.Exit(exit)
		}
		folder.set("last", number)
		folder.set("time", fakeTime)
		folder.noteBackup(frames)
		if frames[0][0] == 0 { // a request
			endKept(act, number, frames)
		}
		writeReplies(number, 200, replies(frames))
	}
}

// isAsked reports whether frames ask for the last time of a folder: by a lock, and when it expires.
func isAsked(frames [][]byte) bool {
	return len(frames) == 3 && frames[0][0] == 0 && frames[1][0] == 5
}

// answerTime answers such frames.
func answerTime(act string, number uint64, frames [][]byte) {
	all := replies(frames)
	switch act {
	case "has no memory for a lock":
		writeReplies(number, 507, nil)
		return
	case "fails the frame for the time":
		all[1] = numbered(7, 507)
	case "has an exclusive lock of the root":
		all[0] = append(numbered(0, 423), make([]byte, 10)...)
		all[1] = binary.BigEndian.AppendUint64([]byte{5, 1}, fakeTime+600)
	case "has no lock":
		all[1] = []byte{5, 0}
	case "ends when it is asked for the time":
		os.Exit(3)
	}
	writeReplies(number, 200, all)
}

// isBegin reports whether a frame begins a body or a backup, or sets the access rules.
func isBegin(kind byte) bool {
	return kind == 1 || kind == 7 || kind == 9
}

// noteBackup keeps whether a backup is under way after these frames.
func (f fakeFolder) noteBackup(frames [][]byte) {
	for _, asked := range frames {
		if asked[0] == 7 || asked[0] == 8 {
			f.set("backup", 8-uint64(asked[0]))
		}
	}
}

// endKept ends davd after it has kept a batch, if it acts so.
func endKept(act string, number uint64, frames [][]byte) {
	switch act {
	case "keeps and ends":
	case "keeps and waits": // so that the next batch is sent meanwhile
		time.Sleep(100 * time.Millisecond)
	case "keeps and answers one frame":
		writeReplies(number, 200, replies(frames), 1)
	case "keeps and writes garbage":
		os.Stdout.WriteString("this is not a batch of replies")
		time.Sleep(time.Second) // It is killed.
	default:
		return
	}
	os.Exit(3)
}

// greetHost answers the batch that asks for the number of the last one. After a wrong answer it has to be killed.
func greetHost(act string, number, last uint64) {
	switch {
	case act == "is mute":
	case act == "writes garbage":
		os.Stdout.WriteString("this is not a batch of replies")
	case act == "greets as if it had served", number != 0:
		writeReplies(last, 200, nil)
	case act == "greets and replies":
		writeReplies(last, 409, [][]byte{{2}})
	default:
		writeReplies(last, 409, nil)
		return
	}
	time.Sleep(5 * time.Minute)
}

var quickOver = pauses{
	first: time.Millisecond, greatest: 10 * time.Millisecond, load: time.Minute, patience: time.Minute,
}

// overFolder returns the configuration of fake davds over a new folder.
func overFolder(t *testing.T, acts string, p pauses) (Config, fakeFolder, *logged) {
	t.Helper()
	t.Setenv(behavior, "folder: "+acts)
	folder, said := t.TempDir(), &logged{}
	fakeFolder(folder).set("meta.db", 0)
	return Config{Program: os.Args[0], Folder: folder, Log: said.logger(), pauses: p}, fakeFolder(folder), said
}

// startOver starts an engine over fake davds and a new folder.
func startOver(t *testing.T, acts string, p pauses) (*Engine, fakeFolder, *logged) {
	t.Helper()
	config, folder, said := overFolder(t, acts, p)
	engine, err := Start(context.Background(), config)
	if err != nil {
		t.Fatal(err)
	}
	t.Cleanup(func() { closeSoon(t, engine) })
	return engine, folder, said
}
