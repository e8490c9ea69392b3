package davd

import (
	"context"
	"errors"
	"os"
	"strings"
	"testing"
	"time"
)

func nothing() error { return nil }

// startBackup begins a backup that succeeds.
func startBackup(t *testing.T, engine *Engine, between func() error) *Backup {
	t.Helper()
	backup, err := engine.StartBackup(soon(t), between)
	if err != nil {
		t.Fatal(err)
	}
	return backup
}

// changeAllTheTime sends changes from several goroutines, until the function that it returns is called. That returns how
// many succeeded.
func changeAllTheTime(t *testing.T, engine *Engine) (stop func() int) {
	t.Helper()
	ctx, cancel := context.WithCancel(context.Background())
	counts := make(chan int)
	const workers = 8
	for i := 0; i < workers; i++ {
		go func() {
			count := 0
			for ; ctx.Err() == nil; count++ {
				if _, err := engine.Do(context.Background(), change); err != nil {
					t.Errorf("a change: %v", err)
					break
				}
			}
			counts <- count
		}()
	}
	return func() int {
		cancel()
		sum := 0
		for i := 0; i < workers; i++ {
			sum += <-counts
		}
		return sum
	}
}

func TestDavdRestsWhenABackupBegins(t *testing.T) {
	engine, folder, _ := startOver(t, "sound", quickOver)
	stop := changeAllTheTime(t, engine)
	for i := 0; i < 10; i++ {
		time.Sleep(5 * time.Millisecond)
		backup := startBackup(t, engine, func() error {
			before := folder.get("last")
			time.Sleep(20 * time.Millisecond)
			if after := folder.get("last"); after != before {
				t.Errorf("batches %d to %d were sent meanwhile", before+1, after)
			}
			if folder.get("backup") != 1 {
				t.Error("davd does not know of the backup")
			}
			return nil
		})
		doChange(t, engine)
		if err := backup.Check(); err != nil {
			t.Errorf("Check: %v", err)
		}
		if err := backup.End(); err != nil {
			t.Errorf("End: %v", err)
		}
		if folder.get("backup") != 0 {
			t.Error("davd does not know of the end")
		}
	}
	if count := stop(); count < 10 {
		t.Errorf("%d changes were done", count)
	}
}

func TestOneBackupAtATime(t *testing.T) {
	engine, folder, _ := startOver(t, "sound", quickOver)
	first := startBackup(t, engine, nothing)
	if _, err := engine.StartBackup(soon(t), nothing); !errors.Is(err, ErrInBackup) {
		t.Errorf("a second backup: %v", err)
	}
	if folder.get("backup") != 1 {
		t.Error("the second backup has ended the first")
	}
	if err := first.End(); err != nil {
		t.Errorf("End: %v", err)
	}
	if err := startBackup(t, engine, nothing).End(); err != nil {
		t.Errorf("End of the next: %v", err)
	}
}

func TestABackupThatCannotBeginHasEnded(t *testing.T) {
	engine, folder, _ := startOver(t, "sound", quickOver)
	failure := errors.New("no room")
	if _, err := engine.StartBackup(soon(t), func() error { return failure }); !errors.Is(err, failure) {
		t.Errorf("StartBackup: %v", err)
	}
	if folder.get("backup") != 0 {
		t.Error("davd does not know of the end")
	}
	doChange(t, engine)
	if err := startBackup(t, engine, nothing).End(); err != nil {
		t.Errorf("End of the next: %v", err)
	}
}

func TestABackupWhosePausePanicsHasEnded(t *testing.T) {
	engine, folder, _ := startOver(t, "sound", quickOver)
	func() {
		defer func() {
			if recovered := recover(); recovered != "a wrong index" {
				t.Errorf("recovered: %v", recovered)
			}
		}()
		engine.StartBackup(soon(t), func() error { panic("a wrong index") })
	}()
	if folder.get("backup") != 0 {
		t.Error("davd does not know of the end")
	}
	doChange(t, engine)
	if err := startBackup(t, engine, nothing).End(); err != nil {
		t.Errorf("End of the next: %v", err)
	}
}

func TestABackupIsLostWithItsDavd(t *testing.T) {
	engine, _, _ := startOver(t, "sound", quickOver)
	_, err := engine.StartBackup(soon(t), func() error { kill(t, engine); return nil })
	if err == nil || !strings.Contains(err.Error(), "ended during the backup") {
		t.Errorf("davd ends while it rests: %v", err)
	}
	doChange(t, engine)
	backup := startBackup(t, engine, nothing)
	kill(t, engine)
	for name, err := range map[string]error{"Check": backup.Check(), "End": backup.End()} {
		if err == nil || !strings.Contains(err.Error(), "ended during the backup") {
			t.Errorf("%s: %v", name, err)
		}
	}
	if err := startBackup(t, engine, nothing).End(); err != nil {
		t.Errorf("End of the next: %v", err)
	}
}

func TestABackupSaysThatTheDiskIsFull(t *testing.T) {
	engine, _, _ := startOver(t, "ends with 7, sound", quickOver)
	backup := startBackup(t, engine, nothing)
	engine.Do(soon(t), change)
	if err := backup.End(); !errors.Is(err, ErrFull) {
		t.Errorf("End: %v", err)
	}
}

func TestAContextEndsTheWaitForDavdToRest(t *testing.T) {
	engine, _, _ := startOver(t, "sound", quickOver)
	calls, release := hold(t, engine, change)
	backup := &Backup{engine: engine, process: engine.process}
	ctx, cancel := context.WithTimeout(context.Background(), 20*time.Millisecond)
	defer cancel()
	err := backup.rest(ctx, func() error { t.Error("davd does not rest"); return nil })
	if !errors.Is(err, context.DeadlineExceeded) {
		t.Errorf("rest: %v", err)
	}
	release()
	if <-calls[0].done; calls[0].err != nil {
		t.Errorf("the change that was sent: %v", calls[0].err)
	}
	doChange(t, engine)
}

func TestTheEndOfABackupIsSentAgainAfterMemoryRanOut(t *testing.T) {
	engine, _ := startFake(t, "no memory for an end")
	if err := startBackup(t, engine, nothing).End(); err != nil {
		t.Errorf("End: %v", err)
	}
}

func TestCloseEndsABackup(t *testing.T) {
	config, _, _ := overFolder(t, "sound", quickOver)
	engine, err := Start(soon(t), config)
	if err != nil {
		t.Fatal(err)
	}
	_, err = engine.StartBackup(soon(t), func() error { closeSoon(t, engine); return nil })
	if !errors.Is(err, ErrClosed) {
		t.Errorf("a backup that begins: %v", err)
	}
	if _, err := engine.StartBackup(soon(t), nothing); !errors.Is(err, ErrClosed) {
		t.Errorf("a backup after Close: %v", err)
	}
}

func TestABackupThatDavdDoesNotBeginIsEnded(t *testing.T) {
	config, said := Config{Program: os.Args[0], pauses: quickOver}, &logged{}
	config.Log = said.logger()
	t.Setenv(behavior, "no memory")
	engine, err := Start(soon(t), config)
	if err != nil {
		t.Fatal(err)
	}
	time.AfterFunc(50*time.Millisecond, func() { engine.Close(soon(t)) }) // Until then the end is sent again and again.
	var failed *StatusError
	if _, err := engine.StartBackup(soon(t), nothing); !errors.As(err, &failed) || failed.Status != 507 {
		t.Errorf("StartBackup: %v", err)
	}
	if _, err := engine.Do(soon(t), change); !errors.Is(err, ErrClosed) {
		t.Errorf("a change: %v", err)
	}
}
