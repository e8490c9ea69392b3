package davd

import (
	"context"
	"errors"
	"os"
	"strings"
	"syscall"
	"testing"
	"time"

	"davserve/internal/frame"
)

// startHanging starts an engine over a new folder and fake davds, or over a program for the shell in their place, that are
// killed when they stand still for so long.
func startHanging(t *testing.T, limit time.Duration, config Config) (*Engine, *logged) {
	t.Helper()
	said := &logged{}
	config.Log, config.HangTimeout = said.logger(), limit
	if config.pauses == (pauses{}) {
		config.pauses = quickOver
	}
	engine, err := Start(soon(t), config)
	if err != nil {
		t.Fatal(err)
	}
	t.Cleanup(func() {
		ctx, cancel := context.WithTimeout(context.Background(), 10*time.Millisecond)
		defer cancel()
		engine.Close(ctx) // It may have to be killed.
	})
	return engine, said
}

// inShellFor returns the configuration of a program for the shell that does not answer.
func inShellFor(t *testing.T, script string) Config {
	t.Helper()
	t.Setenv(behavior, "")
	return Config{Program: "/bin/sh", Args: []string{"-c", script}}
}

// signal sends a signal to the davd that is in service.
func signal(t *testing.T, engine *Engine, signal syscall.Signal) {
	t.Helper()
	engine.mu.Lock()
	defer engine.mu.Unlock()
	if err := engine.process.command.Process.Signal(signal); err != nil {
		t.Fatal(err)
	}
}

// large is a change of more bytes than a pipe and its buffer have.
var large = &frame.Request{Method: "MKCOL", Path: "/" + strings.Repeat("x", 1<<20), Token: "urn:t"}

func TestADavdThatIsStoppedIsKilled(t *testing.T) {
	const limit = 200 * time.Millisecond
	for _, test := range []struct {
		name   string
		frame  frame.Frame
		folder bool
		want   error
	}{
		{"a read", frame.Held{}, false, nil},
		{"a read over a folder", frame.Held{}, true, nil},
		{"a read that is too long for a pipe", frame.Read{Path: large.Path}, false, &StatusError{Status: 404}},
		{"a change", change, false, ErrLost},
		{"a change over a folder", change, true, ErrLost},
		{"a change that is too long for a pipe", large, false, ErrLost},
		{"a change over a folder that is too long for a pipe", large, true, ErrLost},
	} {
		t.Run(test.name, func(t *testing.T) {
			config := Config{Program: os.Args[0]}
			t.Setenv(behavior, "sound")
			if test.folder {
				config, _, _ = overFolder(t, "sound", quickOver)
			}
			engine, said := startHanging(t, limit, config)
			before := processOf(t, engine)
			signal(t, engine, syscall.SIGSTOP)
			began := time.Now()
			_, err := engine.Do(context.Background(), test.frame)
			var failed *StatusError
			if errors.As(test.want, &failed) {
				errors.As(err, &failed)
				test.want = failed
			}
			if !errors.Is(err, test.want) {
				t.Errorf("%v, want %v", err, test.want)
			}
			if took := time.Since(began); took < limit {
				t.Errorf("davd was killed after %v", took)
			}
			if processOf(t, engine) == before || engine.Started() != 1 {
				t.Errorf("davd was started again %d times", engine.Started())
			}
			awaitLog(t, said, "davd has something to do, and has not run for 200ms. It is in state T of ps(1), and is killed\n")
			awaitLog(t, said, "davd ended (signal: killed)")
		})
	}
}

func TestADavdThatSleepsForEverIsKilled(t *testing.T) {
	engine, said := startHanging(t, 100*time.Millisecond, inShellFor(t, "exec sleep 600"))
	if _, err := engine.Do(context.Background(), change); !errors.Is(err, ErrLost) {
		t.Errorf("a change: %v", err)
	}
	awaitLog(t, said, "It is in state S of ps(1)")
}

func TestADavdThatWorksIsNotKilled(t *testing.T) {
	for name, script := range map[string]string{
		"it computes":            "while :; do :; done",
		"it waits now and again": "while :; do sleep 0.01; done",
	} {
		t.Run(name, func(t *testing.T) {
			const limit = time.Second
			engine, said := startHanging(t, limit, inShellFor(t, script))
			ctx, cancel := context.WithTimeout(context.Background(), 3*limit)
			defer cancel()
			if _, err := engine.Do(ctx, frame.Held{}); !errors.Is(err, context.DeadlineExceeded) || engine.Started() != 0 {
				t.Errorf("%v, and davd was started again %d times:\n%s", err, engine.Started(), said)
			}
		})
	}
}

func TestADavdThatHasNothingToDoIsNotKilled(t *testing.T) {
	config, _, _ := overFolder(t, "sound", quickOver)
	const limit = 200 * time.Millisecond
	engine, said := startHanging(t, limit, config)
	before := processOf(t, engine)
	time.Sleep(2 * limit)
	signal(t, engine, syscall.SIGSTOP)
	time.Sleep(2 * limit)
	signal(t, engine, syscall.SIGCONT)
	backup := startBackup(t, engine, func() error { // Requests wait, and davd rests.
		time.Sleep(2 * limit)
		return nil
	})
	if err := backup.End(); err != nil || processOf(t, engine) != before {
		t.Errorf("%v, and davd was started again %d times:\n%s", err, engine.Started(), said)
	}
}

func TestADavdThatGoesOnInTimeIsNotKilled(t *testing.T) {
	t.Setenv(behavior, "sound")
	engine, said := startHanging(t, 10*time.Second, Config{Program: os.Args[0]})
	before := processOf(t, engine)
	signal(t, engine, syscall.SIGSTOP)
	time.AfterFunc(100*time.Millisecond, func() { signal(t, engine, syscall.SIGCONT) })
	if processOf(t, engine) != before {
		t.Errorf("davd was started again:\n%s", said)
	}
}

func TestCloseEndsADavdThatIsStopped(t *testing.T) {
	t.Setenv(behavior, "sound")
	engine, said := startHanging(t, 100*time.Millisecond, Config{Program: os.Args[0]})
	processOf(t, engine)
	signal(t, engine, syscall.SIGSTOP)
	if err := engine.Close(context.Background()); err != nil {
		t.Errorf("Close: %v", err)
	}
	awaitLog(t, said, "is killed")
}

func TestThreads(t *testing.T) {
	const counts = "\nThreads:\t1\nvoluntary_ctxt_switches:\t7\nnonvoluntary_ctxt_switches:\t2\n"
	for _, test := range []struct {
		status string
		want   threads
		ok     bool
	}{
		{"Name:\tdavd\nState:\tS (sleeping)" + counts, threads{"S", 9}, true},
		{"Name:\tState: R\nState:\tT (stopped)" + counts, threads{"T", 9}, true},
		{"State:\tt (tracing stop)" + counts, threads{"t", 9}, true},
		{"State:\tD (disk sleep)" + counts, threads{"D", 9}, true},
		{"State:\tS (sleeping)\nvoluntary_ctxt_switches:\t7\n", threads{}, false},
		{"State:\tS (sleeping)\nvoluntary_ctxt_switches:\t-1\nnonvoluntary_ctxt_switches:\t1\n", threads{}, false},
		{"State:\t" + counts, threads{}, false},
		{"", threads{}, false},
	} {
		var got threads
		err := got.add([]byte(test.status))
		if (err == nil) != test.ok || test.ok && got != test.want {
			t.Errorf("%q: %+v, %v", test.status, got, err)
		}
	}
	several := threads{}
	for _, state := range []string{"S", "D", "S", "T"} {
		several.add([]byte("State:\t" + state + counts))
	}
	if several != (threads{"SDT", 36}) {
		t.Errorf("several threads: %+v", several)
	}
	if own, err := threadsOf(os.Getpid()); err != nil || !strings.Contains(own.states, "R") || own.switches == 0 {
		t.Errorf("of this process: %+v, %v", own, err)
	}
	if none, err := threadsOf(1 << 30); none != (threads{}) {
		t.Errorf("of no process: %+v, %v", none, err)
	}
}
