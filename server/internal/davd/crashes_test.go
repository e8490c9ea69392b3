package davd

import (
	"encoding/binary"
	"errors"
	"fmt"
	"math/rand"
	"os"
	"path/filepath"
	"strings"
	"sync"
	"testing"
	"time"

	"davserve/internal/frame"
)

// fakeCrashing is a davd over a folder that ends at some batches: before it keeps them, after that, or while it answers.
// Like davd, it keeps no batch that changes nothing. The file done has the paths of the requests that were done.
func fakeCrashing(folder fakeFolder) {
	random := rand.New(rand.NewSource(time.Now().UnixNano()))
	readBatch()
	last := folder.get("last")
	for writeReplies(last, 409, nil); ; {
		number, frames := readBatch()
		if number != last+1 {
			writeReplies(last, 409, nil)
			continue
		}
		last = number
		crash := random.Intn(24)
		if crash < 2 {
			os.Exit(3 + 4*crash) // 3 or 7
		}
		if paths := requested(frames); paths != "" {
			folder.add("done", paths)
			folder.set("last", number)
		}
		switch crash {
		case 2:
			os.Exit(3)
		case 3:
			writeReplies(number, 200, replies(frames), len(frames)/2)
			os.Exit(3)
		}
		writeReplies(number, 200, replies(frames))
	}
}

// requested returns the paths of the requests among frames, each in a line.
func requested(frames [][]byte) string {
	var paths strings.Builder
	for _, f := range frames {
		if f[0] == 0 {
			f = f[9+binary.BigEndian.Uint64(f[1:]):] // behind the method
			fmt.Fprintf(&paths, "%s\n", f[8:8+binary.BigEndian.Uint64(f)])
		}
	}
	return paths.String()
}

// add adds a text to a file.
func (f fakeFolder) add(name, text string) {
	file, err := os.OpenFile(filepath.Join(string(f), name), os.O_APPEND|os.O_CREATE|os.O_WRONLY, 0o600)
	if err != nil {
		panic(err)
	}
	defer file.Close()
	if _, err := file.WriteString(text); err != nil {
		panic(err)
	}
}

func TestEachChangeIsAnsweredAsItWasDone(t *testing.T) {
	engine, folder, _ := startOver(t, "crashes", quickOver)
	var results sync.Map // from the path of a change to its error
	var group sync.WaitGroup
	for i := 0; i < 16; i++ {
		group.Add(1)
		go func(i int) {
			defer group.Done()
			for k := 0; k < 25; k++ {
				path := fmt.Sprintf("/%d-%d", i, k)
				_, err := engine.Do(soon(t), &frame.Request{Method: "MKCOL", Path: path, Token: "urn:t"})
				results.Store(path, err)
				if _, err := engine.Do(soon(t), frame.Held{}); errors.Is(err, ErrUnknown) || errors.Is(err, ErrClosed) {
					t.Errorf("a read: %v", err)
				}
			}
		}(i)
	}
	group.Wait()
	text, err := os.ReadFile(filepath.Join(string(folder), "done"))
	if err != nil {
		t.Fatal(err)
	}
	done := map[string]int{}
	for _, path := range strings.Fields(string(text)) {
		done[path]++
	}
	results.Range(func(path, result any) bool {
		err, _ := result.(error)
		checkOutcome(t, path.(string), err, done[path.(string)])
		return true
	})
}

// checkOutcome checks that the result of a change says whether it was done, and that it was not done twice.
func checkOutcome(t *testing.T, path string, err error, times int) {
	t.Helper()
	want := -1
	switch {
	case err == nil, errors.Is(err, ErrKept):
		want = 1
	case errors.Is(err, ErrLost), errors.Is(err, ErrFull), errors.Is(err, ErrDown):
		want = 0
	}
	if times != want {
		t.Errorf("%s was done %d times, and the error is: %v", path, times, err)
	}
}
