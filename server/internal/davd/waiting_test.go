package davd

import (
	"context"
	"errors"
	"strings"
	"testing"
	"time"

	"davserve/internal/frame"
)

// awaitLog waits until a text is logged.
func awaitLog(t *testing.T, said *logged, text string) {
	t.Helper()
	for end := time.Now().Add(5 * time.Second); !strings.Contains(said.String(), text); time.Sleep(time.Millisecond) {
		if time.Now().After(end) {
			t.Fatalf("the log lacks %q:\n%s", text, said)
		}
	}
}

func TestABodyIsNotDroppedFromTheNextDavd(t *testing.T) {
	engine, said := startFake(t, "shows drops")
	body, err := engine.StartBody(soon(t))
	if err != nil {
		t.Fatal(err)
	}
	before := processOf(t, engine)
	body.process.kill()
	for processOf(t, engine) == before {
		time.Sleep(time.Millisecond)
	}
	body.Drop() // The next davd may have given the number to another body.
	time.Sleep(50 * time.Millisecond)
	processOf(t, engine)
	if strings.Contains(said.String(), "a body is dropped") {
		t.Error("the next davd was told to drop a body of the last")
	}
}

func TestReadsAreWhatChangesNothing(t *testing.T) {
	for _, method := range []string{"PROPFIND", "OPTIONS"} {
		if !reads(&frame.Request{Method: method}) {
			t.Errorf("%s changes something", method)
		}
	}
	for _, method := range []string{"PUT", "PATCH", "DELETE", "MKCOL", "COPY", "MOVE", "PROPPATCH", "LOCK", "UNLOCK"} {
		if reads(&frame.Request{Method: method}) {
			t.Errorf("%s changes nothing", method)
		}
	}
	for _, f := range []frame.Frame{frame.Explain{}, frame.ListLocks{}} {
		if !reads(f) {
			t.Errorf("%T changes something", f)
		}
	}
	for _, f := range []frame.Frame{frame.StartBody{}, frame.AddToBody{}, frame.DropBody{}, frame.SetRights{},
		frame.RemoveLock{}, frame.SetModified{}} {
		if reads(f) {
			t.Errorf("%T changes nothing", f)
		}
	}
}

func TestWhatAdds(t *testing.T) {
	for _, method := range []string{"PUT", "PATCH", "MKCOL", "COPY", "MOVE", "PROPPATCH"} {
		if !adds(&frame.Request{Method: method}) {
			t.Errorf("%s adds nothing", method)
		}
	}
	others := []frame.Frame{frame.Read{}, frame.DropBody{}, frame.Held{}, frame.BeginBackup{}, frame.EndBackup{},
		frame.SetRights{}, frame.Explain{}, frame.ListLocks{}, frame.RemoveLock{}, frame.SetModified{}}
	for _, method := range []string{"PROPFIND", "OPTIONS", "DELETE", "UNLOCK", "LOCK"} { // the refresh of a lock
		others = append(others, &frame.Request{Method: method})
	}
	for _, f := range others {
		if adds(f) {
			t.Errorf("%s %T adds something", describe(f), f)
		}
	}
}

func TestWhatFrees(t *testing.T) {
	for _, f := range []frame.Frame{&frame.Request{Method: "DELETE"}, &frame.Request{Method: "UNLOCK"}, frame.RemoveLock{}} {
		if !frees(f) {
			t.Errorf("%s %T frees nothing", describe(f), f)
		}
	}
	for _, f := range []frame.Frame{&frame.Request{Method: "PUT"}, frame.DropBody{}, frame.ListLocks{}, frame.SetModified{}} {
		if frees(f) {
			t.Errorf("%s %T frees something", describe(f), f)
		}
	}
}

func TestAChangeThatWasSentIsAwaited(t *testing.T) {
	engine, _ := startFake(t, "slow") // It answers after 20 ms.
	ctx, cancel := context.WithTimeout(context.Background(), 5*time.Millisecond)
	defer cancel()
	if reply, err := engine.Do(ctx, change); err != nil || reply.(frame.Response).Status != 201 {
		t.Errorf("a change whose client leaves: %v, %v", reply, err)
	}
}

func TestMoreRepliesThanFramesEndDavd(t *testing.T) {
	engine, _ := startFake(t, "too many")
	if _, err := engine.Do(soon(t), change); !errors.Is(err, ErrLost) {
		t.Errorf("a change: %v", err)
	}
}

func TestWhatWaitsIsWrittenAfterAnAnswer(t *testing.T) {
	engine, _ := startFake(t, "slow")
	results := make(chan error)
	const calls = 3 * underWay * batchFrames / 2
	for i := 0; i < calls; i++ {
		go func() {
			_, err := engine.Do(soon(t), change)
			results <- err
		}()
	}
	for i := 0; i < calls; i++ {
		if err := <-results; err != nil {
			t.Fatal(err)
		}
	}
}

func TestCloseFailsWhatWaits(t *testing.T) {
	engine, _ := startFake(t, "mute")
	results := make(chan error, 2*underWay)
	for i := 0; i < cap(results); i++ {
		go func() {
			_, err := engine.Do(context.Background(), change)
			results <- err
		}()
		time.Sleep(10 * time.Millisecond) // Each is in a batch of its own, or waits.
	}
	ctx, cancel := context.WithTimeout(context.Background(), 50*time.Millisecond)
	defer cancel()
	engine.Close(ctx)
	for i := 0; i < cap(results); i++ {
		select {
		case err := <-results:
			if !errors.Is(err, ErrClosed) && !errors.Is(err, ErrLost) {
				t.Errorf("a change: %v", err)
			}
		case <-time.After(5 * time.Second):
			t.Fatal("a call is left")
		}
	}
}

func TestMemoryIsLimited(t *testing.T) {
	t.Setenv(behavior, "")
	said := &logged{}
	engine, err := Start(context.Background(), Config{
		Program: "/bin/sh", Args: []string{"-c", "ulimit -v >&2; cat >/dev/null"}, Memory: 64<<20 + 1, Log: said.logger(),
	})
	if err != nil {
		t.Fatal(err)
	}
	defer closeSoon(t, engine)
	awaitLog(t, said, "61441") // KiB, rounded up, without the reserve
}

func TestDavdIsInAProcessGroupOfItsOwn(t *testing.T) {
	engine, _ := startFake(t, "sound")
	if attributes := engine.process.command.SysProcAttr; attributes == nil || !attributes.Setpgid {
		t.Error("davd gets the interrupts of the terminal")
	}
}

func TestAReadIsSentTwiceAtMost(t *testing.T) {
	engine, _ := startFake(t, "ends")
	if _, err := engine.Do(soon(t), frame.Held{}); !errors.Is(err, ErrLost) && !errors.Is(err, ErrDown) {
		t.Errorf("a read that no davd answers: %v", err)
	}
}

// hold keeps a batch of these frames from being written, until the result is called.
func hold(t *testing.T, engine *Engine, frames ...frame.Frame) (calls []*call, release func()) {
	t.Helper()
	engine.mu.Lock()
	defer engine.mu.Unlock()
	for _, f := range frames {
		calls = append(calls, newCall(f))
	}
	engine.waiting = append(engine.waiting, calls...)
	b := engine.next()
	if b == nil {
		t.Fatal("somebody writes already")
	}
	return calls, func() { engine.write(b) }
}

func TestCloseWaitsForABatchThatIsWritten(t *testing.T) {
	engine, _ := startFake(t, "sound")
	calls, release := hold(t, engine, change)
	closed := make(chan error)
	go func() { closed <- engine.Close(soon(t)) }()
	time.Sleep(20 * time.Millisecond)
	release()
	if <-calls[0].done; calls[0].err != nil {
		t.Errorf("a change that is written while the engine is closed: %v", calls[0].err)
	}
	if err := <-closed; err != nil {
		t.Errorf("Close: %v", err)
	}
}

func TestAnAnsweredChangeIsNotLost(t *testing.T) {
	engine, said := startFake(t, "half")
	calls, release := hold(t, engine, change, change)
	release()
	if <-calls[0].done; calls[0].err != nil {
		t.Errorf("the first change: %v", calls[0].err)
	}
	if <-calls[1].done; !errors.Is(calls[1].err, ErrLost) {
		t.Errorf("the second change: %v", calls[1].err)
	}
	awaitLog(t, said, "not answered 1 frames")
}

func TestAPieceThatWaitsIsNotForTheNextDavd(t *testing.T) {
	engine, _ := startFake(t, "mute after one")
	body, err := engine.StartBody(soon(t))
	if err != nil {
		t.Fatal(err)
	}
	for i := 0; i < underWay; i++ { // Batches that are not answered.
		_, release := hold(t, engine, change)
		release()
	}
	result := make(chan error)
	go func() { result <- body.Add(soon(t), []byte("piece")) }()
	time.Sleep(20 * time.Millisecond)
	body.process.kill()
	if err := <-result; !errors.Is(err, ErrLost) {
		t.Errorf("the piece: %v", err)
	}
}

func TestAContextEndsTheWaitForAReadThatIsWritten(t *testing.T) {
	t.Setenv(behavior, "")
	engine, err := Start(context.Background(), Config{
		Program: "/bin/sh", Args: []string{"-c", "exec sleep 600"}, Log: (&logged{}).logger(),
	})
	if err != nil {
		t.Fatal(err)
	}
	ctx, cancel := context.WithTimeout(context.Background(), 50*time.Millisecond)
	defer cancel()
	t.Cleanup(func() { engine.Close(ctx) })
	results := make(chan error, 4)
	for i := 0; i < cap(results); i++ { // The first ones are written, and fill the pipe. The others wait.
		go func() {
			_, err := engine.Do(ctx, frame.Read{Path: "/" + strings.Repeat("x", 1<<20)})
			results <- err
		}()
	}
	for i := 0; i < cap(results); i++ {
		select {
		case err := <-results:
			if !errors.Is(err, context.DeadlineExceeded) {
				t.Errorf("a read: %v", err)
			}
		case <-time.After(5 * time.Second):
			t.Fatal("a read is still waiting for a davd that does not read")
		}
	}
}
