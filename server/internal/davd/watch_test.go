package davd

import (
	"os"
	"path/filepath"
	"testing"
	"time"
)

// watching looks at the files of the folder all the time.
func watching() pauses {
	p := quickOver
	p.watch = time.Millisecond
	return p
}

func TestAFolderThatIsReplacedIsNoticed(t *testing.T) {
	engine, folder, said := startOver(t, "sound", watching())
	doChange(t, engine)
	doChange(t, engine)
	aside := fakeFolder(string(folder) + "-aside")
	if err := os.Rename(string(folder), string(aside)); err != nil {
		t.Fatal(err)
	}
	if err := os.Mkdir(string(folder), 0o700); err != nil {
		t.Fatal(err)
	}
	folder.set("last", 1) // an older backup
	folder.set("meta.db", 0)
	awaitLog(t, said, "was replaced, moved or unmounted while it was served: meta.db is gone, or another file")
	awaitLog(t, said, "it has lost changes that were answered: its last batch is 1, and 2 was answered")
}

func TestAFolderThatIsRemovedIsNoticed(t *testing.T) {
	engine, folder, said := startOver(t, "sound", watching())
	doChange(t, engine)
	if err := os.Remove(filepath.Join(string(folder), "meta.db")); err != nil {
		t.Fatal(err)
	}
	awaitLog(t, said, "meta.db is gone, or another file")
	awaitLog(t, said, "meta.db: no such file")
	folder.set("meta.db", 0)
	waitUntil(t, func() bool { return engine.process != nil }, engine)
	doChange(t, engine)
}

func TestAFolderThatChangesIsNotReplaced(t *testing.T) {
	engine, folder, said := startOver(t, "sound", watching())
	for number := uint64(0); number < 20; number++ {
		doChange(t, engine)
		folder.set("meta.db", number)
		time.Sleep(2 * time.Millisecond)
	}
	if started := engine.Started(); started != 0 {
		t.Errorf("davd was started again %d times: %s", started, said)
	}
}
