package davd

import (
	"context"
	"errors"
	"os"
	"path/filepath"
	"strings"
	"syscall"
	"testing"

	"davserve/internal/frame"
)

// look is a frame that only reads. The response to it has the access rules.
var look = &frame.Request{Method: "PROPFIND", Path: "/d/", Token: "urn:t"}

// rightsOf returns the access rules by which a request was served.
func rightsOf(t *testing.T, reply frame.Reply) string {
	t.Helper()
	response, ok := reply.(frame.Response)
	if !ok || len(response.Fields) != 1 || response.Fields[0].Name != "rights" {
		t.Fatalf("the reply to a request is %#v", reply)
	}
	return response.Fields[0].Value
}

// wantRights sends a request, and compares the access rules by which it is served.
func wantRights(t *testing.T, engine *Engine, want string) {
	t.Helper()
	reply, err := engine.Do(soon(t), look)
	if err != nil {
		t.Fatal(err)
	}
	if got := rightsOf(t, reply); got != want {
		t.Errorf("a request is served by the rules %q, want %q", got, want)
	}
}

// forEachStore runs a test with sound davds in memory, and with such davds over a folder.
func forEachStore(t *testing.T, test func(t *testing.T, config Config)) {
	t.Run("in memory", func(t *testing.T) {
		t.Setenv(behavior, "sound")
		test(t, Config{Program: os.Args[0], Log: (&logged{}).logger(), pauses: quickOver})
	})
	t.Run("over a folder", func(t *testing.T) {
		config, _, _ := overFolder(t, "sound", quickOver)
		test(t, config)
	})
}

// startWith starts an engine with access rules.
func startWith(t *testing.T, config Config, rights string) *Engine {
	t.Helper()
	config.Rights = rights
	engine, err := Start(soon(t), config)
	if err != nil {
		t.Fatal(err)
	}
	t.Cleanup(func() { closeSoon(t, engine) })
	return engine
}

func TestEachDavdIsToldTheAccessRulesFirst(t *testing.T) {
	forEachStore(t, func(t *testing.T, config Config) {
		engine := startWith(t, config, "one")
		wantRights(t, engine, "one")
		for _, rights := range []string{"two", "three", ""} {
			if err := engine.SetRights(soon(t), rights); err != nil {
				t.Fatal(err)
			}
			wantRights(t, engine, rights)
			kill(t, engine)
			wantRights(t, engine, rights)
		}
	})
}

func TestWithoutAccessRulesDavdIsToldNone(t *testing.T) {
	engine, folder, _ := startOver(t, "sound", quickOver)
	if last := folder.get("last"); last != 0 {
		t.Errorf("batch %d was sent", last)
	}
	if err := engine.SetRights(soon(t), "one"); err != nil {
		t.Fatal(err)
	}
	kill(t, engine)
	wantRights(t, engine, "one")
}

func TestStartSaysWhyAccessRulesAreNotSet(t *testing.T) {
	tests := []struct {
		rights, says string
		isRefused    bool
	}{
		{"refused", "the access rules: line 1: refused", true},
		{"no memory", "status 507", false},
		{"an unknown frame", "status 400", false},
		{"a wrong reply", "frame.Collection", false},
		{"ends", "exit status 3", false},
	}
	for _, test := range tests {
		forEachStore(t, func(t *testing.T, config Config) {
			config.Rights = test.rights
			_, err := Start(soon(t), config)
			if err == nil || !strings.Contains(err.Error(), test.says) {
				t.Fatalf("%s: Start: %v, want %q", test.rights, err, test.says)
			}
			var refused *RightsError
			if got := errors.As(err, &refused); got != test.isRefused || got && refused.Reason != "line 1: refused" {
				t.Errorf("%s: Start: %#v", test.rights, err)
			}
			if isReply(err) && strings.Contains(err.Error(), "killed") {
				t.Errorf("%s: Start says that davd was killed: %v", test.rights, err)
			}
		})
	}
}

func TestStartDoesNotWaitForever(t *testing.T) {
	t.Setenv(behavior, "mute")
	config := Config{Program: os.Args[0], Log: (&logged{}).logger(), pauses: quickOver, Rights: "one"}
	ctx, cancel := context.WithCancel(context.Background())
	cancel()
	if _, err := Start(ctx, config); !errors.Is(err, context.Canceled) {
		t.Errorf("Start: %v", err)
	}
	config.pauses.load = 1
	if _, err := Start(soon(t), config); err == nil || !strings.Contains(err.Error(), "has not answered within 1ns") {
		t.Errorf("Start: %v", err)
	}
}

func TestAccessRulesThatAreNotSetLeaveTheOldOnes(t *testing.T) {
	forEachStore(t, func(t *testing.T, config Config) {
		engine := startWith(t, config, "one")
		var refused *RightsError
		err := engine.SetRights(soon(t), "refused: two")
		if !errors.As(err, &refused) || refused.Reason != "line 1: refused: two" {
			t.Errorf("a text without rules: %v", err)
		}
		var failed *StatusError
		if err := engine.SetRights(soon(t), "no memory"); !errors.As(err, &failed) || failed.Status != 507 {
			t.Errorf("without memory: %v", err)
		}
		if err := engine.SetRights(soon(t), "a wrong reply"); err == nil {
			t.Error("a wrong reply is no error")
		}
		wantRights(t, engine, "one")
		if err := engine.SetRights(soon(t), "ends"); !errors.Is(err, ErrLost) { // two davds
			t.Errorf("davd ends: %v", err)
		}
		wantRights(t, engine, "one")
	})
}

func TestABatchWithoutMemoryLeavesTheOldAccessRules(t *testing.T) {
	engine, _ := startFake(t, "no memory")
	var failed *StatusError
	if err := engine.SetRights(soon(t), "one"); !errors.As(err, &failed) || failed.Status != 507 {
		t.Errorf("SetRights: %v", err)
	}
	if engine.rights != nil {
		t.Errorf("the next davd gets the rules %q", *engine.rights)
	}
}

// Whoever waits for the reply may not be awake yet when davd ends.
func TestAccessRulesAreKeptBeforeTheirReplyIsSeen(t *testing.T) {
	forEachStore(t, func(t *testing.T, config Config) {
		engine := startWith(t, config, "one")
		c := engine.newSetting("two")
		engine.submit(c)
		waitUntil(t, func() bool { return len(c.done) == 1 }, engine)
		kill(t, engine)
		wantRights(t, engine, "two")
	})
}

// A result is what came of a call.
type result struct {
	reply frame.Reply
	err   error
}

// inQueue queues a call that cannot be sent yet, behind those that wait already.
func inQueue(t *testing.T, engine *Engine, do func() (frame.Reply, error)) <-chan result {
	t.Helper()
	engine.mu.Lock()
	before := engine.queued
	engine.mu.Unlock()
	results := make(chan result, 1)
	go func() {
		reply, err := do()
		results <- result{reply, err}
	}()
	waitUntil(t, func() bool { return engine.queued > before }, engine)
	return results
}

// ask returns a function that sends a request.
func ask(t *testing.T, engine *Engine, f frame.Frame) func() (frame.Reply, error) {
	return func() (frame.Reply, error) { return engine.Do(soon(t), f) }
}

// set returns a function that sets access rules.
func set(t *testing.T, engine *Engine, rights string) func() (frame.Reply, error) {
	return func() (frame.Reply, error) { return nil, engine.SetRights(soon(t), rights) }
}

// wantResult checks the rules by which a call was served.
func wantResult(t *testing.T, results <-chan result, want string) {
	t.Helper()
	got := <-results
	if got.err != nil {
		t.Fatal(got.err)
	}
	if rights := rightsOf(t, got.reply); rights != want {
		t.Errorf("a request is served by the rules %q, want %q", rights, want)
	}
}

func TestAccessRulesAreReplacedBetweenTwoCalls(t *testing.T) {
	forEachStore(t, func(t *testing.T, config Config) {
		engine := startWith(t, config, "one")
		_, release := hold(t, engine, change)
		before := inQueue(t, engine, ask(t, engine, change))
		two := inQueue(t, engine, set(t, engine, "two"))
		between := inQueue(t, engine, ask(t, engine, change))
		three := inQueue(t, engine, set(t, engine, "three"))
		after := inQueue(t, engine, ask(t, engine, change))
		release()
		for _, results := range []<-chan result{two, three} {
			if got := <-results; got.err != nil {
				t.Error(got.err)
			}
		}
		wantResult(t, before, "one")
		wantResult(t, between, "two")
		wantResult(t, after, "three")
	})
}

// Whatever a davd that stands still was sent is sent to the next one in the same order.
func TestAccessRulesKeepTheirPlaceWhenTheyAreSentAgain(t *testing.T) {
	forEachStore(t, func(t *testing.T, config Config) {
		engine := startWith(t, config, "one")
		if err := engine.process.command.Process.Signal(syscall.SIGSTOP); err != nil {
			t.Fatal(err)
		}
		var calls []<-chan result
		for _, do := range []func() (frame.Reply, error){
			ask(t, engine, look), set(t, engine, "two"), ask(t, engine, look), set(t, engine, "three"), ask(t, engine, look),
		} {
			calls = append(calls, inQueue(t, engine, do))
		}
		waitUntil(t, func() bool { return engine.process.pending == underWay && len(engine.waiting) == 1 }, engine)
		engine.process.kill()
		wantResult(t, calls[0], "one")
		wantResult(t, calls[2], "two")
		wantResult(t, calls[4], "three")
		for _, i := range []int{1, 3} {
			if got := <-calls[i]; got.err != nil {
				t.Error(got.err)
			}
		}
	})
}

func TestWhatAContextLeavesOfAccessRules(t *testing.T) {
	forEachStore(t, func(t *testing.T, config Config) {
		engine := startWith(t, config, "one")
		_, release := hold(t, engine, change)
		ctx, cancel := context.WithCancel(context.Background())
		waits := inQueue(t, engine, func() (frame.Reply, error) { return nil, engine.SetRights(ctx, "two") })
		cancel()
		if got := <-waits; !errors.Is(got.err, context.Canceled) {
			t.Errorf("a text that was not sent: %v", got.err)
		}
		release()
		wantRights(t, engine, "one")
		calls, release := hold(t, engine, frame.SetRights{Rules: "two"})
		if engine.withdraw(calls[0]) || calls[0].repeats() {
			t.Error("a text that was sent is withdrawn, or is sent again although nobody waits for that")
		}
		release()
		if <-calls[0].done; calls[0].err != nil {
			t.Errorf("a text that was sent: %v", calls[0].err)
		}
	})
}

func TestAccessRulesThatWereSentAreAwaited(t *testing.T) {
	t.Setenv(behavior, "sound")
	engine := startWith(t, Config{Program: os.Args[0], Log: (&logged{}).logger(), pauses: quickOver}, "one")
	if err := engine.process.command.Process.Signal(syscall.SIGSTOP); err != nil {
		t.Fatal(err)
	}
	ctx, cancel := context.WithCancel(context.Background())
	results := inQueue(t, engine, func() (frame.Reply, error) { return nil, engine.SetRights(ctx, "two") })
	waitUntil(t, func() bool { return engine.process.pending == 1 && !engine.writing }, engine)
	cancel()
	if err := engine.process.command.Process.Signal(syscall.SIGCONT); err != nil {
		t.Fatal(err)
	}
	if got := <-results; got.err != nil {
		t.Errorf("SetRights: %v", got.err)
	}
	wantRights(t, engine, "two")
}

// startGone starts an engine with access rules whose davd then ends and cannot be started again, until the function
// that it returns is called.
func startGone(t *testing.T) (engine *Engine, back func()) {
	t.Helper()
	t.Setenv(behavior, "sound")
	program := filepath.Join(t.TempDir(), "davd")
	back = func() {
		if err := os.Symlink(os.Args[0], program); err != nil {
			t.Error(err)
		}
	}
	back()
	engine = startWith(t, Config{Program: program, Log: (&logged{}).logger(), pauses: quickOver}, "one")
	if err := os.Remove(program); err != nil {
		t.Fatal(err)
	}
	engine.process.kill()
	waitUntil(t, func() bool { return engine.pausing }, engine)
	return engine, back
}

func TestAccessRulesWaitWhileDavdDoesNotRun(t *testing.T) {
	engine, back := startGone(t)
	if _, err := engine.Do(soon(t), look); !errors.Is(err, ErrDown) {
		t.Errorf("a read: %v", err)
	}
	results := inQueue(t, engine, set(t, engine, "two"))
	ctx, cancel := context.WithCancel(context.Background())
	cancel()
	if err := engine.SetRights(ctx, "three"); !errors.Is(err, context.Canceled) {
		t.Errorf("SetRights with a context that is done: %v", err)
	}
	back()
	if got := <-results; got.err != nil {
		t.Errorf("SetRights: %v", got.err)
	}
	wantRights(t, engine, "two")
}

func TestCloseFailsAccessRulesThatWait(t *testing.T) {
	engine, _ := startGone(t)
	results := inQueue(t, engine, set(t, engine, "two"))
	closeSoon(t, engine)
	if got := <-results; !errors.Is(got.err, ErrClosed) {
		t.Errorf("SetRights: %v", got.err)
	}
}

// The batch with the access rules has the number of the batch that was lost, and does not count as that one.
func TestABatchThatWasLostIsNotTakenForTheAccessRules(t *testing.T) {
	config, folder, _ := overFolder(t, "ends with 3, sound", quickOver)
	engine := startWith(t, config, "one")
	if _, err := engine.Do(soon(t), change); !errors.Is(err, ErrLost) {
		t.Errorf("a change that was not kept: %v", err)
	}
	doChange(t, engine)
	if last := folder.get("last"); last != 3 {
		t.Errorf("the last batch has the number %d, want 3", last)
	}
}

func TestADavdThatCannotBeToldTheAccessRulesIsNotInService(t *testing.T) {
	config, folder, said := overFolder(t, "sound", quickOver)
	engine := startWith(t, config, "one")
	engine.mu.Lock()
	refused, one := "refused", engine.rights
	engine.rights = &refused // The next davd is another program.
	engine.process.kill()
	engine.mu.Unlock()
	awaitLog(t, said, "the access rules: line 1: refused")
	if _, err := engine.Do(soon(t), look); !errors.Is(err, ErrDown) {
		t.Errorf("a read: %v", err)
	}
	if starts := folder.get("starts"); starts < 2 {
		t.Errorf("%d davds were started", starts)
	}
	engine.mu.Lock()
	engine.rights = one
	engine.mu.Unlock()
	waitUntil(t, func() bool { return engine.process != nil }, engine)
	wantRights(t, engine, "one")
}

func TestExplain(t *testing.T) {
	engine, _ := startFake(t, "sound")
	name := "ada"
	got, err := engine.Explain(soon(t), &name, "/projects")
	if err != nil || got.Rule == nil || *got.Rule != 3 || !got.List || !got.Read || got.Write {
		t.Errorf("Explain: %+v, %v", got, err)
	}
}
