package davd

import (
	"testing"
	"time"

	"davserve/internal/frame"
)

// quickRest is quickOver, with a short time until davd notes how far its folder is.
func quickRest() pauses {
	quick := quickOver
	quick.rest = 20 * time.Millisecond
	return quick
}

// settled returns the number in a file that a davd may be writing, or 0.
func (f fakeFolder) settled(name string) uint64 {
	n, err := f.read(name)
	if err != nil {
		return 0
	}
	return n
}

// awaitLast waits until the last batch that was kept has this number.
func awaitLast(t *testing.T, folder fakeFolder, want uint64) {
	t.Helper()
	for end := time.Now().Add(5 * time.Second); folder.settled("last") != want; time.Sleep(time.Millisecond) {
		if time.Now().After(end) {
			t.Fatalf("the last batch has the number %d, want %d", folder.settled("last"), want)
		}
	}
}

func TestABatchFollowsAChangeWhenNothingElseDoes(t *testing.T) {
	engine, folder, _ := startOver(t, "sound", quickRest())
	doChange(t, engine)
	awaitLast(t, folder, 2)
	time.Sleep(100 * time.Millisecond)
	awaitLast(t, folder, 2) // One is enough.
	doChange(t, engine)
	awaitLast(t, folder, 4)
}

func TestNoBatchFollowsOneThatOnlyReads(t *testing.T) {
	engine, folder, _ := startOver(t, "sound", quickRest())
	if _, err := engine.Do(soon(t), frame.ListLocks{}); err != nil {
		t.Fatal(err)
	}
	time.Sleep(100 * time.Millisecond)
	awaitLast(t, folder, 1)
}

func TestNothingIsSentAfterTheEnd(t *testing.T) {
	engine, folder, _ := startOver(t, "sound", quickRest())
	doChange(t, engine)
	closeSoon(t, engine)
	time.Sleep(100 * time.Millisecond)
	awaitLast(t, folder, 1)
}
