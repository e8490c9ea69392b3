package davd

import (
	"context"
	"errors"
	"math/big"
	"os"
	"path/filepath"
	"reflect"
	"strconv"
	"strings"
	"syscall"
	"testing"
	"time"

	"davserve/internal/frame"
)

// doChange sends a change that succeeds.
func doChange(t *testing.T, engine *Engine) {
	t.Helper()
	if reply, err := engine.Do(soon(t), change); err != nil || reply.(frame.Response).Status != 201 {
		t.Fatalf("a change: %v, %v", reply, err)
	}
}

func TestTheFolderIsTheLastArgument(t *testing.T) {
	args := make([]string, 2, 10)
	copy(args, []string{"-quota", "7"})
	if got := (Config{Args: args, Folder: "/f"}).arguments(); !reflect.DeepEqual(got, []string{"-quota", "7", "/f"}) {
		t.Errorf("with a folder: %q", got)
	}
	if got := (Config{Args: args}).arguments(); !reflect.DeepEqual(got, []string{"-quota", "7"}) {
		t.Errorf("without a folder: %q", got)
	}
}

func TestNumbersAreDrawnForEachStart(t *testing.T) {
	seen := make(map[string]bool)
	for range [4]struct{}{} {
		config, err := Config{Folder: "/f"}.drawn()
		if err != nil {
			t.Fatal(err)
		}
		drawn := config.Args
		if len(drawn) != 4 || drawn[0] != "-key" || drawn[2] != "-seed" {
			t.Fatalf("arguments: %q", drawn)
		}
		if key, err := strconv.ParseInt(drawn[1], 10, 64); err != nil || key < 0 {
			t.Errorf("the key is %s: %v", drawn[1], err)
		}
		if _, err := strconv.ParseUint(drawn[3], 10, 64); err != nil {
			t.Errorf("the seed is %s: %v", drawn[3], err)
		}
		if seen[drawn[1]] || seen[drawn[3]] {
			t.Errorf("a number came twice: %q", drawn)
		}
		seen[drawn[1]], seen[drawn[3]] = true, true
	}
}

func TestAPartOfEntityTagsIsDrawn(t *testing.T) {
	seen := make(map[string]bool)
	for range [4]struct{}{} {
		config, err := Config{Args: []string{"-quota", "7"}}.drawn()
		if err != nil {
			t.Fatal(err)
		}
		if len(config.Args) != 4 || config.Args[2] != "-tags" {
			t.Fatalf("arguments: %q", config.Args)
		}
		part, ok := new(big.Int).SetString(config.Args[3], 10)
		if !ok || part.Sign() < 0 || part.BitLen() > 128 {
			t.Errorf("the part is %s", config.Args[3])
		}
		if seen[config.Args[3]] {
			t.Errorf("a part came twice: %s", config.Args[3])
		}
		seen[config.Args[3]] = true
	}
}

func TestNumbersGoOnFromTheOneThatDavdNames(t *testing.T) {
	config, folder, _ := overFolder(t, "sound", quickOver)
	folder.set("last", 41)
	engine, err := Start(soon(t), config)
	if err != nil {
		t.Fatal(err)
	}
	defer closeSoon(t, engine)
	doChange(t, engine)
	doChange(t, engine)
	if last := folder.get("last"); last != 43 {
		t.Errorf("the last batch has the number %d, want 43", last)
	}
}

func TestNumbersGoOnAfterARestart(t *testing.T) {
	tests := []struct {
		acts string
		want uint64 // the number of the third batch
	}{
		{"sound", 3},
		{"sound, forgets a batch", 2},
	}
	for _, test := range tests {
		t.Run(test.acts, func(t *testing.T) {
			engine, folder, _ := startOver(t, test.acts, quickOver)
			doChange(t, engine)
			if _, err := engine.Do(soon(t), &frame.Request{Method: "PROPPATCH", Path: "/"}); err != nil {
				t.Fatal(err) // It may have changed nothing.
			}
			kill(t, engine)
			doChange(t, engine)
			if last := folder.get("last"); last != test.want {
				t.Errorf("the last batch has the number %d, want %d", last, test.want)
			}
		})
	}
}

func TestAFolderThatHasLostWhatWasAnsweredIsNotServed(t *testing.T) {
	engine, folder, said := startOver(t, "sound, forgets a batch, sound", quickOver)
	doChange(t, engine)
	doChange(t, engine)
	engine.mu.Lock()
	engine.process.kill()
	engine.mu.Unlock()
	awaitLog(t, said, "lost changes that were answered: its last batch is 1, and 2 was answered")
	folder.set("last", 2)
	waitUntil(t, func() bool { return engine.process != nil }, engine)
	doChange(t, engine)
	if last := folder.get("last"); last != 3 {
		t.Errorf("the last batch has the number %d, want 3", last)
	}
}

func TestAFolderThatIsGoneIsNotMadeAnew(t *testing.T) {
	engine, folder, said := startOver(t, "sound", quickOver)
	doChange(t, engine)
	aside := fakeFolder(string(folder) + "-aside")
	if err := os.Rename(string(folder), string(aside)); err != nil {
		t.Fatal(err)
	}
	engine.mu.Lock()
	engine.process.kill()
	engine.mu.Unlock()
	awaitLog(t, said, "meta.db: no such file")
	if err := os.Rename(string(aside), string(folder)); err != nil {
		t.Fatal(err)
	}
	waitUntil(t, func() bool { return engine.process != nil }, engine)
	doChange(t, engine)
}

// kill kills davd, and waits until the next one is in service.
func kill(t *testing.T, engine *Engine) {
	t.Helper()
	started := engine.Started()
	engine.mu.Lock()
	engine.process.kill()
	engine.mu.Unlock()
	for end := time.Now().Add(5 * time.Second); engine.Started() == started; time.Sleep(time.Millisecond) {
		if time.Now().After(end) {
			t.Fatal("davd is not started again")
		}
	}
}

func TestWhatWasKeptAndNotAnsweredHasNoReply(t *testing.T) {
	engine, _, said := startOver(t, "keeps and ends, sound", quickOver)
	calls, release := hold(t, engine, change, frame.Held{}, change)
	release()
	for _, i := range []int{0, 2} {
		if <-calls[i].done; !errors.Is(calls[i].err, ErrKept) {
			t.Errorf("change %d: %v", i, calls[i].err)
		}
	}
	if <-calls[1].done; calls[1].err != nil {
		t.Errorf("a read in a batch that was kept: %v", calls[1].err)
	}
	doChange(t, engine)
	awaitLog(t, said, "has kept 2 frames")
}

func TestWhatWasAnsweredWronglyHasNoReply(t *testing.T) {
	engine, _, _ := startOver(t, "keeps and writes garbage, sound", quickOver)
	if _, err := engine.Do(soon(t), change); !errors.Is(err, ErrKept) {
		t.Errorf("a change: %v", err)
	}
}

func TestWhatWasAnsweredHasItsReply(t *testing.T) {
	engine, _, _ := startOver(t, "keeps and answers one frame, sound", quickOver)
	calls, release := hold(t, engine, change, change)
	release()
	if <-calls[0].done; calls[0].err != nil {
		t.Errorf("the change that was answered: %v", calls[0].err)
	}
	if <-calls[1].done; !errors.Is(calls[1].err, ErrKept) {
		t.Errorf("the change that was not: %v", calls[1].err)
	}
}

func TestTheBatchesAfterTheOneThatWasKeptWereNotDone(t *testing.T) {
	engine, folder, _ := startOver(t, "keeps and waits, sound", quickOver)
	kept, release := hold(t, engine, change)
	release()
	later, release := hold(t, engine, change, frame.Held{})
	release()
	if <-kept[0].done; !errors.Is(kept[0].err, ErrKept) {
		t.Errorf("the change that was kept: %v", kept[0].err)
	}
	if <-later[0].done; !errors.Is(later[0].err, ErrLost) {
		t.Errorf("the change in the next batch: %v", later[0].err)
	}
	if <-later[1].done; later[1].err != nil {
		t.Errorf("the read in the next batch: %v", later[1].err)
	}
	if last := folder.get("last"); last != 2 {
		t.Errorf("the last batch has the number %d, want that of the read, 2", last)
	}
}

func TestWhatWasNotKeptWasNotDone(t *testing.T) {
	tests := []struct {
		acts string
		want error
		says string
	}{
		{"ends with 3, sound", ErrLost, "exit status 3"},
		{"ends with 7, sound", ErrFull, "the disk of the folder is full"},
		{"ends with 8, sound", ErrLost, "could not be kept"},
		{"ends with 7, ends at the start with 6, writes garbage, sound", ErrFull, "cannot be read or written"},
	}
	for _, test := range tests {
		t.Run(test.acts, func(t *testing.T) {
			engine, folder, said := startOver(t, test.acts, quickOver)
			if _, err := engine.Do(soon(t), change); !errors.Is(err, test.want) {
				t.Errorf("a change: %v, want %v", err, test.want)
			}
			if last := folder.get("last"); last != 0 {
				t.Errorf("batch %d was kept", last)
			}
			doChange(t, engine)
			awaitLog(t, said, test.says)
			awaitLog(t, said, `has not done 1 frames that it had not answered: "MKCOL /d/"`)
		})
	}
}

func TestAReadOverAFolderIsSentAgain(t *testing.T) {
	engine, folder, _ := startOver(t, "ends with 7, sound", quickOver)
	processOf(t, engine)
	if starts := folder.get("starts"); starts != 2 {
		t.Errorf("%d davds were started", starts)
	}
}

func TestAReadOverAFolderIsSentTwiceAtMost(t *testing.T) {
	engine, folder, _ := startOver(t, "ends with 7", quickOver)
	if _, err := engine.Do(soon(t), frame.Held{}); !errors.Is(err, ErrLost) && !errors.Is(err, ErrDown) {
		t.Errorf("a read that no davd answers: %v", err)
	}
	if starts := folder.get("starts"); starts > 3 {
		t.Errorf("%d davds were started", starts)
	}
}

func TestAnUploadIsLostWithItsDavd(t *testing.T) {
	tests := []struct {
		acts string
		want error
	}{
		{"ends with 3, sound", ErrLost},
		{"ends with 7, sound", ErrFull},
	}
	for _, test := range tests {
		t.Run(test.acts, func(t *testing.T) {
			engine, _, _ := startOver(t, test.acts, quickOver)
			body, err := engine.StartBody(soon(t))
			if err != nil {
				t.Fatal(err)
			}
			if err := body.Add(soon(t), []byte("piece")); !errors.Is(err, test.want) {
				t.Errorf("the piece that was sent: %v", err)
			}
			if err := body.Add(soon(t), []byte("piece")); !errors.Is(err, test.want) {
				t.Errorf("the next piece: %v", err)
			}
			if _, err := body.Do(soon(t), nil, &frame.Request{Method: "PUT", Path: "/a"}); !errors.Is(err, test.want) {
				t.Errorf("the request: %v", err)
			}
			body.Drop()
		})
	}
}

func TestARequestThatWasNotSentIsLostWithItsBody(t *testing.T) {
	engine, _, _ := startOver(t, "sound", quickOver)
	doChange(t, engine)
	body, err := engine.StartBody(soon(t))
	if err != nil {
		t.Fatal(err)
	}
	defer body.Drop()
	_, release := hold(t, engine, change) // So that the next call waits.
	defer release()
	result := make(chan error)
	go func() {
		_, err := body.Do(soon(t), nil, &frame.Request{Method: "PUT", Path: "/a"})
		result <- err
	}()
	waitUntil(t, func() bool { return len(engine.waiting) == 1 }, engine)
	body.process.kill()
	if err := <-result; !errors.Is(err, ErrLost) {
		t.Errorf("the request: %v", err)
	}
}

func TestAPieceInABatchThatWasKeptIsLost(t *testing.T) {
	engine, _, said := startOver(t, "keeps and ends, sound", quickOver)
	calls, release := hold(t, engine, change, frame.StartBody{})
	release()
	if <-calls[0].done; !errors.Is(calls[0].err, ErrKept) {
		t.Errorf("the change: %v", calls[0].err)
	}
	if <-calls[1].done; !errors.Is(calls[1].err, ErrLost) {
		t.Errorf("the beginning of a body: %v", calls[1].err)
	}
	awaitLog(t, said, `had not answered 1 frames that change something: "upload"`)
}

func TestAnUploadThatWasKeptHasNoReply(t *testing.T) {
	engine, _, _ := startOver(t, "keeps and ends, sound", quickOver)
	body, err := engine.StartBody(soon(t))
	if err != nil {
		t.Fatal(err)
	}
	defer body.Drop()
	if err := body.Add(soon(t), []byte("piece")); err != nil {
		t.Fatal(err)
	}
	if _, err := body.Do(soon(t), nil, &frame.Request{Method: "PUT", Path: "/a"}); !errors.Is(err, ErrKept) {
		t.Errorf("the request: %v", err)
	}
}

func TestNobodyKnowsWhileDavdIsNotBack(t *testing.T) {
	short := quickOver
	short.patience = 100 * time.Millisecond
	for _, away := range []string{"ends at the start with 6", "greets as if it had served", "is mute"} {
		t.Run(away, func(t *testing.T) {
			engine, _, said := startOver(t, "ends with 3, "+away, short)
			if _, err := engine.Do(soon(t), change); !errors.Is(err, ErrUnknown) {
				t.Errorf("the change that was sent: %v", err)
			}
			if _, err := engine.Do(soon(t), change); !errors.Is(err, ErrDown) {
				t.Errorf("a later change: %v", err)
			}
			awaitLog(t, said, `nobody knows whether it has done 1 frames: "MKCOL /d/"`)
		})
	}
}

func TestAReadIsLostWhileDavdIsNotBack(t *testing.T) {
	short := quickOver
	short.patience = 100 * time.Millisecond
	engine, _, said := startOver(t, "sound, is mute", short)
	process := engine.process
	signal := process.command.Process.Signal
	if err := signal(syscall.SIGSTOP); err != nil {
		t.Fatal(err)
	}
	calls, release := hold(t, engine, frame.Held{}, frame.Read{Path: "/a"}, change)
	release()
	process.kill()
	for i, want := range []error{ErrLost, ErrLost, ErrUnknown} {
		if <-calls[i].done; calls[i].err != want {
			t.Errorf("%s: %v, want %v", calls[i].what, calls[i].err, want)
		}
	}
	awaitLog(t, said, `nobody knows whether it has done 1 frames: "MKCOL /d/"`)
}

func TestCloseLosesAReadWhileDavdIsNotBack(t *testing.T) {
	engine, _, _ := startOver(t, "ends, is mute", quickOver)
	calls, release := hold(t, engine, frame.Held{}, change)
	release()
	waitUntil(t, func() bool { return engine.outage != nil }, engine)
	closeSoon(t, engine)
	for i, want := range []error{ErrLost, ErrUnknown} {
		if <-calls[i].done; calls[i].err != want {
			t.Errorf("%s: %v, want %v", calls[i].what, calls[i].err, want)
		}
	}
}

func TestCallsThatAreNotSentWaitAsLong(t *testing.T) {
	short := quickOver
	short.patience = 100 * time.Millisecond
	engine, _, _ := startOver(t, "ends with 3, is mute", short)
	sent, release := hold(t, engine, change)
	release()
	waitUntil(t, func() bool { return engine.outage != nil }, engine)
	if _, err := engine.Do(soon(t), frame.Held{}); !errors.Is(err, ErrDown) {
		t.Errorf("a read while davd loads the folder: %v", err)
	}
	if <-sent[0].done; !errors.Is(sent[0].err, ErrUnknown) {
		t.Errorf("the change that was sent: %v", sent[0].err)
	}
}

// waitUntil waits until a condition on an engine holds.
func waitUntil(t *testing.T, holds func() bool, engine *Engine) {
	t.Helper()
	for end := time.Now().Add(5 * time.Second); ; time.Sleep(time.Millisecond) {
		engine.mu.Lock()
		done := holds()
		engine.mu.Unlock()
		if done {
			return
		}
		if time.Now().After(end) {
			t.Fatal("it is not as expected within 5 s")
		}
	}
}

func TestItGoesOnWhenDavdIsBack(t *testing.T) {
	short := quickOver
	short.patience, short.load = 100*time.Millisecond, 500*time.Millisecond
	engine, _, said := startOver(t, "ends with 3, is mute, sound", short)
	if _, err := engine.Do(soon(t), change); !errors.Is(err, ErrUnknown) {
		t.Errorf("the change that was sent: %v", err)
	}
	waitUntil(t, func() bool { return engine.process != nil }, engine)
	doChange(t, engine)
	awaitLog(t, said, "has not answered within 500ms")
}

func TestStartSaysWhyAFolderIsNotServed(t *testing.T) {
	quick := quickOver
	quick.load = time.Second
	tests := []struct {
		act  string
		is   error
		says string
	}{
		{"ends at the start with 2", nil, "davd rejects its arguments"},
		{"ends at the start with 3", nil, "its memory ran out at the start, or a stream failed (exit status 3)"},
		{"ends at the start with 4", ErrNoStore, "exit status 4"},
		{"ends at the start with 5", ErrInUse, "the folder is in use by another process (exit status 5)"},
		{"ends at the start with 6", ErrNoAccess, "exit status 6"},
		{"greets as if it had served", nil, "batch 0 has the status 200 and 0 replies"},
		{"greets and replies", nil, "batch 0 has the status 409 and 1 replies"},
		{"writes garbage", nil, "expected an HTTP status"},
		{"is mute", nil, "has not answered within 1s"},
	}
	for _, test := range tests {
		t.Run(test.act, func(t *testing.T) {
			config, folder, _ := overFolder(t, test.act, quick)
			_, err := Start(soon(t), config)
			if err == nil || test.is != nil && !errors.Is(err, test.is) {
				t.Fatalf("Start: %v, want %v", err, test.is)
			}
			for _, want := range []string{test.says, string(folder)} {
				if !strings.Contains(err.Error(), want) {
					t.Errorf("Start: %v, without %q", err, want)
				}
			}
			if starts := folder.get("starts"); starts != 1 {
				t.Errorf("%d davds were started", starts)
			}
		})
	}
}

func TestStartEndsWithItsContext(t *testing.T) {
	config, _, _ := overFolder(t, "is mute", quickOver)
	ctx, cancel := context.WithTimeout(context.Background(), 50*time.Millisecond)
	defer cancel()
	if _, err := Start(ctx, config); !errors.Is(err, context.DeadlineExceeded) {
		t.Errorf("Start: %v", err)
	}
}

func TestAContextOfAStartDoesNotEndDavd(t *testing.T) {
	config, _, _ := overFolder(t, "sound", quickOver)
	ctx, cancel := context.WithCancel(context.Background())
	engine, err := Start(ctx, config)
	if err != nil {
		t.Fatal(err)
	}
	defer closeSoon(t, engine)
	cancel()
	doChange(t, engine)
	if engine.Started() != 0 {
		t.Error("davd was started again")
	}
}

func TestCloseEndsADavdThatLoads(t *testing.T) {
	engine, _, _ := startOver(t, "ends with 3, is mute", quickOver)
	sent, release := hold(t, engine, change)
	release()
	waitUntil(t, func() bool { return engine.outage != nil }, engine)
	time.Sleep(20 * time.Millisecond)
	closeSoon(t, engine)
	if <-sent[0].done; !errors.Is(sent[0].err, ErrUnknown) {
		t.Errorf("the change that was sent: %v", sent[0].err)
	}
}

func TestCloseKillsADavdThatDoesNotAnswer(t *testing.T) {
	config, _, _ := overFolder(t, "sound", quickOver)
	engine, err := Start(soon(t), config)
	if err != nil {
		t.Fatal(err)
	}
	calls, _ := hold(t, engine, change) // It is never written.
	ctx, cancel := context.WithTimeout(context.Background(), 50*time.Millisecond)
	defer cancel()
	if err := engine.Close(ctx); !errors.Is(err, context.DeadlineExceeded) {
		t.Errorf("Close: %v", err)
	}
	if <-calls[0].done; !errors.Is(calls[0].err, ErrUnknown) {
		t.Errorf("the change: %v", calls[0].err)
	}
}

func TestADavdThatCannotKeepIsNotStartedAllTheTime(t *testing.T) {
	slow := quickOver
	slow.first, slow.greatest, slow.long = 50*time.Millisecond, time.Hour, time.Hour
	engine, folder, _ := startOver(t, "ends with 7", slow)
	for end := time.Now().Add(500 * time.Millisecond); time.Now().Before(end); time.Sleep(time.Millisecond) {
		ctx, cancel := context.WithTimeout(context.Background(), time.Second)
		_, err := engine.Do(ctx, change)
		cancel()
		if !errors.Is(err, ErrFull) && !errors.Is(err, ErrDown) {
			t.Fatalf("a change: %v", err)
		}
	}
	if starts := folder.get("starts"); starts > 5 {
		t.Errorf("%d davds were started within half a second", starts)
	}
}

func TestALinkInTheFolderIsRefused(t *testing.T) {
	tests := map[string]func(other, name string) error{"a symbolic link": os.Symlink, "a second name": os.Link}
	for what, link := range tests {
		for _, name := range fileNames {
			t.Run(what+" of "+name, func(t *testing.T) {
				config, folder, _ := overFolder(t, "sound", quickOver)
				other := filepath.Join(t.TempDir(), "other")
				if err := os.WriteFile(other, nil, 0o600); err != nil {
					t.Fatal(err)
				}
				at := filepath.Join(string(folder), name)
				os.Remove(at)
				if err := link(other, at); err != nil {
					t.Fatal(err)
				}
				_, err := Start(soon(t), config)
				if !errors.Is(err, ErrNoStore) || !strings.Contains(err.Error(), name+" is a link") {
					t.Errorf("a start: %v", err)
				}
			})
		}
	}
}

func TestANewStoreIsLogged(t *testing.T) {
	config, folder, said := overFolder(t, "sound", quickOver)
	if err := os.Remove(filepath.Join(string(folder), "meta.db")); err != nil {
		t.Fatal(err)
	}
	engine, err := Start(soon(t), config)
	if err != nil {
		t.Fatal(err)
	}
	defer closeSoon(t, engine)
	awaitLog(t, said, "had no store: a new one was made")
}

func TestOtherFilesInANewFolderAreLogged(t *testing.T) {
	const said = "has other files, which are not served"
	for _, test := range []struct {
		name string
		want bool
	}{{"", false}, {"lost+found", false}, {"control", false}, {"data", false}, {"photo.jpg", true}} {
		config, folder, log := overFolder(t, "sound", quickOver)
		os.Remove(filepath.Join(string(folder), "meta.db"))
		if test.name != "" {
			folder.set(test.name, 0)
		}
		engine, err := Start(soon(t), config)
		if err != nil {
			t.Fatal(err)
		}
		if got := strings.Contains(log.String(), said); got != test.want {
			t.Errorf("with %q the log says so: %t, want %t:\n%s", test.name, got, test.want, log)
		}
		closeSoon(t, engine)
	}
}

func TestOnlyItsUserReadsWhatDavdMakes(t *testing.T) {
	defer syscall.Umask(syscall.Umask(0o022))
	for _, memory := range []int64{0, 1 << 30} {
		engine, _ := startShell(t, memory, greets, goesOn)
		info, err := os.Stat(filepath.Join(engine.config.Folder, "meta.db"))
		if err != nil {
			t.Fatal(err)
		}
		if got := info.Mode().Perm(); got != 0o600 {
			t.Errorf("with -memory %d the mode is %v, want 0600", memory, got)
		}
	}
}

func TestAMissingNumberIsLogged(t *testing.T) {
	const said = "had neither last nor last-wal"
	for _, name := range []string{"", "last", "last-wal"} {
		config, folder, log := overFolder(t, "sound", quickOver)
		os.Remove(filepath.Join(string(folder), "last"))
		if name != "" {
			folder.set(name, 0)
		}
		engine, err := Start(soon(t), config)
		if err != nil {
			t.Fatal(err)
		}
		if got := strings.Contains(log.String(), said); got != (name == "") {
			t.Errorf("with %q the log says that the number is missing: %t:\n%s", name, got, log)
		}
		closeSoon(t, engine)
	}
}

func TestALossThatIsAcceptedIsLogged(t *testing.T) {
	config, _, said := overFolder(t, "sound", quickOver)
	config.Lossy = true
	engine, err := Start(soon(t), config)
	if err != nil {
		t.Fatal(err)
	}
	defer closeSoon(t, engine)
	awaitLog(t, said, "is served even if its last changes are lost")
}
