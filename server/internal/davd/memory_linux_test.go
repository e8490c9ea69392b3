package davd

import (
	"errors"
	"math"
	"strconv"
	"strings"
	"testing"
	"time"

	"davserve/internal/frame"
)

// Steps of a program for the shell in the place of davd. The test program itself, with the race detector, has too much
// memory for that.
const (
	showsLimit  = `ulimit -v >&2`
	findsFolder = `for folder; do :; done; >>"$folder/meta.db"` // in its last argument
	// greets answers the batch that asks for the number of the last one, which is 0 unless last says another.
	greets = `head -c 24 >/dev/null; printf "\0\0\0\0\0\0\0${last:-\0}\0\0\0\0\0\0\1\231\0\0\0\0\0\0\0\0"`
	waits  = `head -c 1 >/dev/null` // for the first byte of a batch
	// answers answers a batch of one request with the status 204. It is batch 1 unless next says another.
	answers = `printf "\0\0\0\0\0\0\0${next:-\1}\0\0\0\0\0\0\0\310\0\0\0\0\0\0\0\1"
		printf '\0\0\0\0\0\0\0\23\0\0\0\0\0\0\0\0\314\0\0\0\0\0\0\0\0\0\0'`
	goesOn = `cat >/dev/null` // to the end of its input
	grows  = `x=$(head -c 20000000 /dev/zero | tr '\0' x)`
	// growsOnce grows the first time only.
	growsOnce = `if ! [ -e "$folder/again" ]; then >"$folder/again"; ` + grows + `; else last='\1' next='\2'; fi`
	// endsOnce ends the first time, and grows after that.
	endsOnce = `if [ -e "$folder/again" ]; then sleep 0.3; ` + grows + `; else >"$folder/again"; ` + greets + `; ` + waits + `; exit 3; fi`
)

// startShell starts an engine over a program for the shell and a new folder.
func startShell(t *testing.T, memory int64, steps ...string) (*Engine, *logged) {
	t.Helper()
	if !canLimit() {
		t.Skip("a running process cannot be limited here")
	}
	said := &logged{}
	engine, err := Start(soon(t), Config{
		Program: "/bin/sh", Args: []string{"-c", strings.Join(append([]string{findsFolder}, steps...), "\n")},
		Folder: t.TempDir(), Memory: memory, Log: said.logger(), pauses: quickOver,
	})
	if err != nil {
		t.Fatal(err)
	}
	t.Cleanup(func() { closeSoon(t, engine) })
	return engine, said
}

// expectNoMemory has the engine do what would add something to a davd that is full.
func expectNoMemory(t *testing.T, engine *Engine, f frame.Frame) {
	t.Helper()
	var failed *StatusError
	if _, err := engine.Do(soon(t), f); !errors.As(err, &failed) || failed.Status != 507 {
		t.Errorf("%s: %v, want 507", describe(f), err)
	}
}

// expectRemoved has the engine do what removes something.
func expectRemoved(t *testing.T, engine *Engine) {
	t.Helper()
	reply, err := engine.Do(soon(t), &frame.Request{Method: "DELETE", Path: "/a"})
	if err != nil || reply.(frame.Response).Status != 204 {
		t.Errorf("DELETE: %v, %v", reply, err)
	}
}

func TestTheLimitIsLoweredOnceAFolderIsLoaded(t *testing.T) {
	engine, said := startShell(t, 64<<20, showsLimit, greets, waits, showsLimit, answers, goesOn)
	if _, err := engine.Do(soon(t), change); err != nil {
		t.Errorf("a change: %v", err)
	}
	awaitLog(t, said, `"262144"`) // KiB
	awaitLog(t, said, `"61440"`)  // without the reserve
	if strings.Contains(said.String(), "507") {
		t.Errorf("davd is full:\n%s", said)
	}
}

func TestADavdThatHasTooMuchMemoryForItsFolderStillRemoves(t *testing.T) {
	engine, said := startShell(t, 16<<20, grows, greets, waits, showsLimit, answers, goesOn)
	awaitLog(t, said, "-memory allows 16384 KiB")
	for _, f := range []frame.Frame{change, frame.StartBody{}, &frame.Request{Method: "LOCK", Body: &frame.Element{}}} {
		expectNoMemory(t, engine, f)
	}
	expectRemoved(t, engine)
	awaitLog(t, said, `"65536"`) // It keeps the limit of its start.
}

func TestWhatWaitsIsNotAddedToADavdThatIsFull(t *testing.T) {
	engine, said := startShell(t, 16<<20, endsOnce, greets, waits, answers, goesOn)
	if _, err := engine.Do(soon(t), frame.EndBackup{}); !errors.Is(err, ErrLost) {
		t.Errorf("what the first davd got: %v", err)
	}
	expectNoMemory(t, engine, change)
	if engine.Started() != 1 {
		t.Errorf("davd was started again %d times", engine.Started())
	}
	awaitLog(t, said, "-memory allows")
	expectRemoved(t, engine)
}

func TestADavdThatIsFullIsStartedAgainWhenSomethingWasRemoved(t *testing.T) {
	engine, said := startShell(t, 16<<20, growsOnce, greets, waits, answers, goesOn)
	expectNoMemory(t, engine, change)
	expectRemoved(t, engine)
	for end := time.Now().Add(time.Minute); ; time.Sleep(10 * time.Millisecond) {
		if _, err := engine.Do(soon(t), change); err == nil {
			break
		} else if err != errNoMemory || time.Now().After(end) {
			t.Fatalf("a change after something was removed: %v", err)
		}
	}
	if engine.Started() != 1 {
		t.Errorf("davd was started again %d times", engine.Started())
	}
	awaitLog(t, said, "davd is started again. Its folder has less")
}

func TestTheMemoryIsAMetric(t *testing.T) {
	tests := []struct {
		memory int64
		full   string
	}{{16 << 20, "1"}, {1 << 30, "0"}}
	for _, test := range tests {
		engine, _ := startShell(t, test.memory, grows, greets, goesOn)
		got := metricsOf(t, engine)
		has, err := strconv.ParseInt(got["davserve_davd_memory_bytes"], 10, 64)
		if err != nil || has < 20_000_000 {
			t.Errorf("the memory is %d, %v", has, err)
		}
		awaitMetrics(t, engine, map[string]string{
			"davserve_davd_full":               test.full,
			"davserve_davd_memory_limit_bytes": strconv.FormatInt(test.memory, 10),
		})
	}
}

func TestADavdThatIsFullRunsForSomeTime(t *testing.T) {
	engine, _ := startShell(t, 16<<20, grows, greets, waits, answers, goesOn)
	expectRemoved(t, engine)
	engine.config.pauses.full = time.Hour
	expectNoMemory(t, engine, change)
	engine.config.pauses.full = 0
	engine.process.began = engine.process.loaded.Add(-time.Hour) // It has to serve for ten hours.
	expectNoMemory(t, engine, change)
	engine.process.began = engine.process.loaded
	engine.mu.Lock()
	engine.backup = true
	engine.mu.Unlock()
	expectNoMemory(t, engine, change)
	if engine.Started() != 0 {
		t.Errorf("davd was started again %d times", engine.Started())
	}
}

func TestAProcessThatHasEndedCannotBeLimited(t *testing.T) {
	engine, _ := startShell(t, 64<<20, greets, goesOn)
	process := engine.process
	closeSoon(t, engine)
	if err := process.limitMemory(engine.config); err == nil || !strings.Contains(err.Error(), "cannot be limited") {
		t.Errorf("limitMemory: %v", err)
	}
}

func TestTheLimitAtTheStart(t *testing.T) {
	if greatestLimit() != math.MaxInt64 {
		t.Skip("the tests run under a limit")
	}
	tests := []struct {
		folder       string
		memory, want int64
	}{
		{"", 0, 0},
		{"", 64 << 20, 64 << 20},
		{"/f", 0, 0},
		{"/f", 64 << 20, 256 << 20},
		{"/f", math.MaxInt64, math.MaxInt64},
	}
	for _, test := range tests {
		if got := (Config{Folder: test.folder, Memory: test.memory}).limitAtStart(); got != test.want {
			t.Errorf("folder %q, memory %d: %d, want %d", test.folder, test.memory, got, test.want)
		}
	}
}
