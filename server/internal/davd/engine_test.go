package davd

import (
	"bytes"
	"context"
	"errors"
	"log"
	"os"
	"path/filepath"
	"strings"
	"sync"
	"testing"
	"time"

	"davserve/internal/frame"
)

// logged keeps what is logged.
type logged struct {
	mu   sync.Mutex
	text bytes.Buffer
}

func (l *logged) Write(p []byte) (int, error) {
	l.mu.Lock()
	defer l.mu.Unlock()
	return l.text.Write(p)
}

func (l *logged) String() string {
	l.mu.Lock()
	defer l.mu.Unlock()
	return l.text.String()
}

func (l *logged) logger() *log.Logger { return log.New(l, "", 0) }

func closeSoon(t *testing.T, engine *Engine) {
	t.Helper()
	ctx, cancel := context.WithTimeout(context.Background(), 5*time.Second)
	defer cancel()
	if err := engine.Close(ctx); err != nil {
		t.Errorf("Close: %v", err)
	}
}

// soon returns a context that bounds a test.
func soon(t *testing.T) context.Context {
	t.Helper()
	ctx, cancel := context.WithTimeout(context.Background(), 10*time.Second)
	t.Cleanup(cancel)
	return ctx
}

var change = &frame.Request{Method: "MKCOL", Path: "/d/", Token: "urn:t"}

// processOf returns the number of the process that answers.
func processOf(t *testing.T, engine *Engine) uint64 {
	t.Helper()
	reply, err := engine.Do(soon(t), frame.Held{})
	if err != nil {
		t.Fatalf("Held: %v", err)
	}
	return reply.(frame.Holdings).Quota.Used
}

func TestEachFrameGetsItsReply(t *testing.T) {
	engine, _ := startFake(t, "sound")
	var group sync.WaitGroup
	for i := 0; i < 64; i++ {
		group.Add(1)
		go func(i int) {
			defer group.Done()
			for k := 0; k < 50; k++ {
				checkReply(t, engine, i+k)
			}
		}(i)
	}
	group.Wait()
}

// checkReply sends one of three frames, which have different replies.
func checkReply(t *testing.T, engine *Engine, i int) {
	ctx := context.Background()
	switch i % 3 {
	case 0:
		if reply, err := engine.Do(ctx, change); err != nil || reply.(frame.Response).Status != 201 {
			t.Errorf("a request: %v, %v", reply, err)
		}
	case 1:
		if reply, err := engine.Do(ctx, frame.DropBody{}); err != nil || reply != (frame.Done{}) {
			t.Errorf("DropBody: %v, %v", reply, err)
		}
	case 2:
		var failed *StatusError
		if _, err := engine.Do(ctx, frame.Read{Path: "/"}); !errors.As(err, &failed) || failed.Status != 404 {
			t.Errorf("Read: %v", err)
		}
	}
}

func TestFramesThatWaitShareABatch(t *testing.T) {
	engine, _ := startFake(t, "slow")
	var group sync.WaitGroup
	var mu sync.Mutex
	most := uint64(0)
	for i := 0; i < 40; i++ {
		group.Add(1)
		go func() {
			defer group.Done()
			reply, err := engine.Do(context.Background(), frame.Held{})
			if err != nil {
				t.Error(err)
				return
			}
			mu.Lock()
			defer mu.Unlock()
			if n := reply.(frame.Holdings).Locks; n > most {
				most = n
			}
		}()
	}
	group.Wait()
	if most < 10 {
		t.Errorf("the greatest batch has %d of 40 frames", most)
	}
}

func TestAReadIsSentAgainAndAChangeIsNot(t *testing.T) {
	engine, said := startFake(t, "ends after one")
	before := processOf(t, engine)
	if _, err := engine.Do(soon(t), change); !errors.Is(err, ErrLost) {
		t.Errorf("a change while davd ends: %v", err)
	}
	if after := processOf(t, engine); after == before {
		t.Error("davd was not started again")
	}
	before = processOf(t, engine) // davd ends before it answers, and the next one does.
	if processOf(t, engine) == before {
		t.Error("davd was not started again")
	}
	for _, want := range []string{"exit status 3", "are lost", "MKCOL /d/"} {
		if !strings.Contains(said.String(), want) {
			t.Errorf("the log lacks %q:\n%s", want, said)
		}
	}
}

func TestABodyBelongsToOneProcess(t *testing.T) {
	engine, _ := startFake(t, "sound")
	body, err := engine.StartBody(soon(t))
	if err != nil {
		t.Fatal(err)
	}
	if err := body.Add(soon(t), []byte("one")); err != nil {
		t.Fatal(err)
	}
	before := processOf(t, engine)
	body.process.kill()
	for processOf(t, engine) == before {
		time.Sleep(time.Millisecond)
	}
	if err := body.Add(soon(t), []byte("two")); !errors.Is(err, ErrLost) {
		t.Errorf("a piece for the next davd: %v", err)
	}
	if _, err := body.Do(soon(t), nil, &frame.Request{Method: "PUT", Path: "/a"}); !errors.Is(err, ErrLost) {
		t.Errorf("a request for the next davd: %v", err)
	}
	body.Drop()
}

func TestAnAnsweredPieceIsNotRead(t *testing.T) {
	engine, _ := startFake(t, "sound")
	var group sync.WaitGroup
	for i := 0; i < 8; i++ { // The race detector sees whether a frame is still read when the next one is made.
		group.Add(1)
		go func() {
			defer group.Done()
			body, err := engine.StartBody(context.Background())
			if err != nil {
				t.Error(err)
				return
			}
			defer body.Drop()
			for k := 0; k < 100; k++ {
				if err := body.Add(context.Background(), make([]byte, 200<<10)); err != nil {
					t.Error(err)
				}
			}
		}()
	}
	group.Wait()
}

func TestAWrongReplyEndsDavd(t *testing.T) {
	for _, how := range []string{"garbage", "wrong number", "lost count", "too few", "ends"} {
		t.Run(how, func(t *testing.T) {
			engine, said := startFake(t, how)
			for i := 0; i < 3; i++ {
				_, err := engine.Do(soon(t), change)
				if !errors.Is(err, ErrLost) && !errors.Is(err, ErrDown) {
					t.Fatalf("a change: %v", err)
				}
			}
			if !strings.Contains(said.String(), "davd ended") {
				t.Errorf("the log does not say that davd ended:\n%s", said)
			}
		})
	}
}

func TestABatchWithoutMemoryFailsItsFrames(t *testing.T) {
	engine, _ := startFake(t, "no memory")
	var failed *StatusError
	if _, err := engine.Do(soon(t), change); !errors.As(err, &failed) || failed.Status != 507 {
		t.Errorf("a change: %v", err)
	}
}

func TestAContextEndsTheWaitForARead(t *testing.T) {
	engine, _ := startFake(t, "mute")
	ctx, cancel := context.WithTimeout(context.Background(), 20*time.Millisecond)
	defer cancel()
	if _, err := engine.Do(ctx, frame.Held{}); !errors.Is(err, context.DeadlineExceeded) {
		t.Errorf("a read: %v", err)
	}
}

// isFull reports whether as many batches are under way as may be.
func isFull(engine *Engine) bool {
	engine.mu.Lock()
	defer engine.mu.Unlock()
	return !engine.writing && len(engine.process.sent) == underWay
}

func TestWithdraw(t *testing.T) {
	engine, _ := startFake(t, "mute")
	for !isFull(engine) {
		go engine.Do(context.Background(), frame.NextExpiry{}) // It is sent, and never answered.
		time.Sleep(time.Millisecond)
	}
	ctx, cancel := context.WithTimeout(context.Background(), 20*time.Millisecond)
	defer cancel()
	if _, err := engine.Do(ctx, change); !errors.Is(err, context.DeadlineExceeded) {
		t.Errorf("a change that was not sent: %v", err)
	}
}

func TestCloseKillsADavdThatDoesNotEnd(t *testing.T) {
	t.Setenv(behavior, "sound")
	engine, err := Start(context.Background(), Config{Program: "/bin/sh", Args: []string{"-c", "exec sleep 60"}, Log: (&logged{}).logger()})
	if err != nil {
		t.Fatal(err)
	}
	ctx, cancel := context.WithTimeout(context.Background(), 50*time.Millisecond)
	defer cancel()
	if err := engine.Close(ctx); !errors.Is(err, context.DeadlineExceeded) {
		t.Errorf("Close: %v", err)
	}
	if _, err := engine.Do(context.Background(), change); !errors.Is(err, ErrClosed) {
		t.Errorf("after Close: %v", err)
	}
}

func TestStartNamesAMissingProgram(t *testing.T) {
	_, err := Start(context.Background(), Config{Program: "/no/such/davd"})
	if !errors.Is(err, os.ErrNotExist) {
		t.Errorf("Start: %v", err)
	}
}

func TestCallsFailWhileDavdCannotBeStarted(t *testing.T) {
	program := filepath.Join(t.TempDir(), "davd")
	if err := os.Symlink(os.Args[0], program); err != nil {
		t.Fatal(err)
	}
	engine, said := startProgram(t, program, "ends after one")
	processOf(t, engine)
	if err := os.Remove(program); err != nil {
		t.Fatal(err)
	}
	if _, err := engine.Do(soon(t), frame.Held{}); !errors.Is(err, ErrDown) {
		t.Errorf("a read: %v", err)
	}
	if err := os.Symlink(os.Args[0], program); err != nil {
		t.Fatal(err)
	}
	for {
		if _, err := engine.Do(soon(t), frame.Held{}); err == nil {
			break
		} else if !errors.Is(err, ErrDown) {
			t.Fatalf("a read: %v\n%s", err, said)
		}
		time.Sleep(time.Millisecond)
	}
}

func TestPauses(t *testing.T) {
	p := pauses{first: 1, greatest: 6, long: 100}
	tests := []struct{ ran, last, want time.Duration }{
		{ran: 0, last: 0, want: 1},
		{ran: 0, last: 1, want: 2},
		{ran: 99, last: 2, want: 4},
		{ran: 0, last: 4, want: 6},
		{ran: 0, last: 6, want: 6},
		{ran: 100, last: 6, want: 0},
	}
	for _, test := range tests {
		if got := p.after(test.ran, test.last); got != test.want {
			t.Errorf("after(%d, %d) = %d, want %d", test.ran, test.last, got, test.want)
		}
	}
}

func TestCut(t *testing.T) {
	callOf := func(sizes ...int) *call {
		c := &call{}
		for _, size := range sizes {
			c.frames = append(c.frames, make([]byte, size))
		}
		return c
	}
	small, large, three := callOf(10), callOf(batchBytes), callOf(10, 10, 10)
	rules := callOf(10)
	rules.sets = true
	freeing := callOf(10)
	many := make([]*call, batchFrames+5)
	for i := range many {
		many[i] = small
	}
	tests := []struct {
		name        string
		calls       []*call
		batch, rest int
	}{
		{"one", []*call{small}, 1, 0},
		{"a large one alone", []*call{large, small}, 1, 1},
		{"small ones before a large one", []*call{small, small, large, small}, 2, 2},
		{"many", many, batchFrames, 5},
		{"as many and one of three frames", append([]*call{three}, many...), batchFrames - 2, 8},
		{"one of three frames behind one less", append(append([]*call(nil), many[:batchFrames-1]...), three), batchFrames - 1, 1},
		{"one of two large frames", []*call{callOf(batchBytes, 10), small}, 1, 1},
		{"access rules alone", []*call{rules, small}, 1, 1},
		{"small ones before access rules", []*call{small, small, rules, small}, 2, 2},
		{"access rules twice", []*call{rules, rules}, 1, 1},
		{"one with the reserve alone", []*call{freeing, small}, 1, 1},
		{"small ones before one with the reserve", []*call{small, freeing, small}, 1, 2},
		{"two with the reserve", []*call{freeing, freeing}, 1, 1},
	}
	for _, test := range tests {
		batch, rest := cut(test.calls, func(c *call) bool { return c == freeing })
		if len(batch) != test.batch || len(rest) != test.rest {
			t.Errorf("%s: %d and %d, want %d and %d", test.name, len(batch), len(rest), test.batch, test.rest)
		}
	}
}

// A reply that does not fit is dropped, and those beside it in the batch are not.
func TestAReplyThatDoesNotFitIsDropped(t *testing.T) {
	engine, said := startFake(t, "sound")
	ctx := context.Background()
	var all sync.WaitGroup
	for i := 0; i < 50; i++ {
		all.Add(2)
		go func() {
			defer all.Done()
			length := 0
			reply, err := engine.DoFitting(ctx, frame.Held{}, Fitting{Fits: func(n int) bool { length = n; return false }})
			if reply != nil || err != ErrDropped || length != 19 {
				t.Errorf("of %d bytes: %v, %v", length, reply, err)
			}
		}()
		go func() {
			defer all.Done()
			if _, err := engine.DoFitting(ctx, frame.Held{}, Fitting{Fits: func(n int) bool { return n == 19 }}); err != nil {
				t.Error(err)
			}
		}()
	}
	all.Wait()
	if engine.Started() != 0 {
		t.Errorf("davd was started again:\n%s", said)
	}
}

// What a frame holds is given back when davd has answered it, and not when its client leaves before.
func TestAFrameIsOverWhenDavdHasAnsweredIt(t *testing.T) {
	engine, _ := startFake(t, "mute after one")
	over := make(chan int, 100)
	ask := func(i int) {
		ctx, cancel := context.WithTimeout(context.Background(), 20*time.Millisecond)
		defer cancel()
		engine.DoFitting(ctx, frame.Held{}, Fitting{Over: func() { over <- i }})
	}
	for i := 0; i < 20; i++ { // The first one is answered, some are sent, and the others wait until they leave.
		ask(i)
	}
	count := len(over)
	if count == 0 || count > 20-underWay {
		t.Errorf("%d of 20 are over", count)
	}
	closeSoon(t, engine)
	for ; count < 20; count++ {
		select {
		case <-over:
		case <-time.After(5 * time.Second):
			t.Fatalf("%d of 20 are over at the end", count)
		}
	}
}
