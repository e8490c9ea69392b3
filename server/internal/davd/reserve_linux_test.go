package davd

import (
	"errors"
	"fmt"
	"reflect"
	"regexp"
	"strconv"
	"testing"
	"time"

	"davserve/internal/frame"
)

// deletion is what frees memory.
var deletion = &frame.Request{Method: "DELETE", Path: "/a", Token: "urn:t"}

const gib = 1 << 30

// startAllowed starts an engine over a fake davd, and allows it so much more than it has.
func startAllowed(t *testing.T, how string, more, reserve int64) (*Engine, *logged, allowance) {
	t.Helper()
	if !canLimit() {
		t.Skip("a running process cannot be limited here")
	}
	engine, said := startFake(t, how)
	processOf(t, engine) // It is no shell any more.
	has, err := engine.process.addressSpace()
	if err != nil {
		t.Fatal(err)
	}
	allowed := allowance{common: has + more, reserve: reserve}
	engine.mu.Lock()
	engine.process.allowed = allowed
	engine.mu.Unlock()
	return engine, said, allowed
}

var shown = regexp.MustCompile(`davd says: "(\[[ 0-9]*\] under \w+)"`)

// expectBatches waits until a fake davd has shown so many batches, and compares them.
func expectBatches(t *testing.T, said *logged, want ...string) {
	t.Helper()
	var got []string
	for end := time.Now().Add(10 * time.Second); time.Now().Before(end); time.Sleep(time.Millisecond) {
		got = nil
		for _, found := range shown.FindAllStringSubmatch(said.String(), -1) {
			got = append(got, found[1])
		}
		if len(got) >= len(want) {
			break
		}
	}
	if !reflect.DeepEqual(got, want) {
		t.Errorf("the batches are\n%q\nwant\n%q", got, want)
	}
}

// begun is the first batch of startAllowed.
const begun = "[6] under unlimited"

// under describes a batch with frames of these kinds that is served under a limit.
func under(limit int64, kinds ...int) string {
	return fmt.Sprint(kinds, " under ", limit)
}

func TestOnlyWhatFreesHasTheReserve(t *testing.T) {
	engine, said, allowed := startAllowed(t, "shows its limit", gib, 4*gib)
	want := []string{begun}
	tests := []struct {
		frame frame.Frame
		kind  int
		limit int64
	}{
		{deletion, 0, allowed.most()},
		{change, 0, allowed.common},
		{&frame.Request{Method: "UNLOCK", Path: "/a"}, 0, allowed.most()},
		{frame.Held{}, 6, allowed.common},
		{frame.RemoveLock{Path: "/a", Token: "urn:t"}, 12, allowed.most()},
		{frame.DropBody{}, 3, allowed.most()},
		{&frame.Request{Method: "LOCK", Path: "/a"}, 0, allowed.common},
		{&frame.Request{Method: "PROPFIND", Path: "/a"}, 0, allowed.common},
		{frame.StartBody{}, 1, allowed.common},
		{frame.SetModified{Path: "/a"}, 13, allowed.common},
		{deletion, 0, allowed.most()},
	}
	for _, test := range tests {
		if _, err := engine.Do(soon(t), test.frame); err != nil {
			t.Errorf("%s: %v", describe(test.frame), err)
		}
		want = append(want, under(test.limit, test.kind))
	}
	expectBatches(t, said, want...)
}

// submitTogether queues frames while nothing is sent, and waits until all of them are answered.
func submitTogether(t *testing.T, engine *Engine, frames ...frame.Frame) {
	t.Helper()
	<-engine.pause(engine.process)
	var calls []*call
	for _, f := range frames {
		c := newCall(f)
		engine.submit(c)
		calls = append(calls, c)
	}
	engine.resume()
	for _, c := range calls {
		select {
		case <-c.done:
		case <-soon(t).Done():
			t.Fatalf("%s is not answered", c.what)
		}
		if c.err != nil {
			t.Errorf("%s: %v", c.what, c.err)
		}
	}
}

func TestNothingIsSentBesideWhatHasTheReserve(t *testing.T) {
	engine, said, allowed := startAllowed(t, "shows its limit", gib, 4*gib)
	most, common := allowed.most(), allowed.common
	submitTogether(t, engine, deletion, change, frame.Held{}, deletion, deletion, change, change, change, deletion)
	expectBatches(t, said, begun, under(most, 0), under(common, 0, 6), under(most, 0), under(most, 0),
		under(common, 0, 0, 0), under(most, 0))
}

func TestWithEnoughMemoryWhatFreesSharesABatch(t *testing.T) {
	engine, said, _ := startAllowed(t, "shows its limit", 8*gib, gib)
	submitTogether(t, engine, change, deletion, change, deletion)
	expectBatches(t, said, begun, "[0 0 0 0] under unlimited")
}

func TestADavdWhoseLimitCannotBeLoweredIsKilled(t *testing.T) {
	engine, said, _ := startAllowed(t, "sound", gib, 4*gib)
	spoil := func(int) bool {
		engine.mu.Lock()
		defer engine.mu.Unlock()
		engine.process.allowed = allowance{common: 2, reserve: -1} // It is above what it is at most.
		return true
	}
	if _, err := engine.DoFitting(soon(t), deletion, Fitting{Fits: spoil}); err != nil {
		t.Errorf("DELETE: %v", err)
	}
	if _, err := engine.Do(soon(t), change); err != nil {
		t.Errorf("a change after that: %v", err)
	}
	if engine.Started() != 1 {
		t.Errorf("davd was started again %d times", engine.Started())
	}
	awaitLog(t, said, "cannot be limited any more, and it is killed")
}

// holdReserve has a fake davd hold a body in place of the reserve, while frames wait. It returns what waits.
func holdReserve(t *testing.T, engine *Engine, frames ...frame.Frame) []*call {
	t.Helper()
	engine.mu.Lock()
	engine.process.isHolding = true
	engine.mu.Unlock()
	var calls []*call
	for _, f := range frames {
		c := newCall(f)
		engine.submit(c)
		calls = append(calls, c)
	}
	engine.keepReserve(engine.process, true, nil)
	for _, c := range calls {
		select {
		case <-c.done:
		case <-soon(t).Done():
			t.Fatalf("%s is not answered", c.what)
		}
	}
	return calls
}

func TestWhatIsUsedOfTheReserveIsHeld(t *testing.T) {
	engine, said, allowed := startAllowed(t, "shows its limit", gib, 4*gib)
	for _, c := range holdReserve(t, engine, change, frame.Held{}) {
		if c.err != nil {
			t.Errorf("%s: %v", c.what, c.err)
		}
	}
	if _, err := engine.Do(soon(t), deletion); err != nil {
		t.Errorf("DELETE: %v", err)
	}
	if _, err := engine.Do(soon(t), deletion); err != nil {
		t.Errorf("DELETE: %v", err)
	}
	want := []string{begun, "[1] under unlimited"}
	for i := 0; i < heldBytes/heldPiece; i++ {
		want = append(want, "[2] under unlimited")
	}
	expectBatches(t, said, append(want, "[0 6] under unlimited", under(allowed.most(), 3, 0), under(allowed.most(), 0))...)
}

func TestWithoutRoomForWhatIsHeldDavdIsFull(t *testing.T) {
	engine, said, _ := startAllowed(t, "no memory for a piece", gib, 4*gib)
	calls := holdReserve(t, engine, change, frame.Held{})
	var failed *StatusError
	if !errors.As(calls[0].err, &failed) || failed.Status != 507 {
		t.Errorf("a change: %v, want 507", calls[0].err)
	}
	if calls[1].err != nil {
		t.Errorf("what changes nothing: %v", calls[1].err)
	}
	expectNoMemory(t, engine, change)
	body := &Body{engine: engine, process: engine.process}
	if err := body.Add(soon(t), []byte("x")); !errors.As(err, &failed) || failed.Status != 507 {
		t.Errorf("a piece: %v, want 507", err)
	}
	if engine.process.held != nil || engine.Started() != 0 {
		t.Errorf("davd holds %v, and was started again %d times", engine.process.held, engine.Started())
	}
	awaitLog(t, said, "more than half of the 4194304 KiB of -memory")
	if _, err := engine.Do(soon(t), deletion); err != nil { // Nothing of the reserve is in use after it.
		t.Errorf("DELETE: %v", err)
	}
	if _, err := engine.Do(soon(t), change); err != nil {
		t.Errorf("a change after the DELETE: %v", err)
	}
}

func TestWhatIsHeldAndCannotBeDroppedIsDroppedLater(t *testing.T) {
	engine, _, _ := startAllowed(t, "no memory for what it holds", gib, 4*gib)
	if c := holdReserve(t, engine, change)[0]; c.err != nil {
		t.Errorf("a change: %v", c.err)
	}
	held := engine.process.held
	expectNoMemory(t, engine, deletion) // Its batch begins with the drop.
	if held == nil || engine.process.held != held {
		t.Errorf("davd held %v, and then %v", held, engine.process.held)
	}
}

// takes is a step of a program for the shell: it reads a batch of one frame.
func takes(f frame.Frame) string {
	return fmt.Sprintf("head -c %d >/dev/null", 24+8+8+len(frame.Append(nil, f)))
}

// growsSlowly adds 23 MB to the memory of the shell, without ever having more.
const growsSlowly = `x=$(head -c 2000000 /dev/zero | tr '\0' x); for i in 1 2 3 4 5 6 7 8 9 10; do eval "x$i=\$x"; done`

func TestADavdThatUsesTheReserveIsFull(t *testing.T) {
	engine, said := startShell(t, 128<<20, showsLimit, greets,
		takes(deletion), showsLimit, growsSlowly, answers, `next='\2'`, takes(change), showsLimit, answers, goesOn)
	engine.config.pauses.full = time.Hour // It is not started again.
	awaitLog(t, said, strconv.Quote(strconv.Itoa(4*128<<10)))
	has, err := engine.process.addressSpace()
	if err != nil {
		t.Fatal(err)
	}
	engine.mu.Lock()
	engine.process.allowed = allowance{common: has + 1<<20, reserve: 40 << 20}
	engine.mu.Unlock()
	if _, err := engine.Do(soon(t), deletion); err != nil {
		t.Errorf("DELETE: %v", err)
	}
	awaitLog(t, said, "more than half of the 40960 KiB of -memory")
	expectNoMemory(t, engine, change)
	if got := metricsOf(t, engine)["davserve_davd_full"]; got != "1" {
		t.Errorf("full is %s", got)
	}
	engine.mu.Lock()
	engine.process.allowed.common += 10 << 20 // As if davd had given so much back.
	engine.mu.Unlock()
	if _, err := engine.Do(soon(t), change); err != nil {
		t.Errorf("a change after davd has given memory back: %v", err)
	}
}

func TestADavdInMemoryThatIsFullIsNotStartedAgain(t *testing.T) {
	engine, _, _ := startAllowed(t, "sound", gib, 4*gib)
	engine.mu.Lock()
	engine.process.isFull = true
	engine.process.allowed = allowance{common: 1, reserve: 1}
	engine.mu.Unlock()
	var failed *StatusError
	for i := 0; i < 2; i++ {
		if _, err := engine.Do(soon(t), change); !errors.As(err, &failed) || failed.Status != 507 {
			t.Errorf("a change: %v, want 507", err)
		}
	}
	if engine.Started() != 0 {
		t.Errorf("davd was started again %d times", engine.Started())
	}
}

func TestTheAllowance(t *testing.T) {
	if !canLimit() {
		t.Skip("a running process cannot be limited here")
	}
	allowed := Config{Memory: 64 << 20}.allowance()
	if want := (allowance{common: 60 << 20, reserve: 4 << 20}); allowed != want {
		t.Fatalf("of 64 MiB: %v, want %v", allowed, want)
	}
	if none := (Config{}).allowance(); none != (allowance{}) {
		t.Errorf("without a limit: %v", none)
	}
	tests := []struct {
		has             int64
		isShort, isFull bool
	}{
		{0, false, false},
		{56 << 20, false, false},
		{56<<20 + 1, true, false},
		{60 << 20, true, false},
		{62 << 20, true, false},
		{62<<20 + 1, true, true},
		{64 << 20, true, true},
	}
	for _, test := range tests {
		if allowed.isShort(test.has) != test.isShort || allowed.isFull(test.has) != test.isFull {
			t.Errorf("%d bytes: short %t, full %t", test.has, allowed.isShort(test.has), allowed.isFull(test.has))
		}
	}
}

func TestTheLimitsOfACommand(t *testing.T) {
	tests := []struct {
		config     Config
		soft, hard string // in KiB
	}{
		{Config{Memory: 64 << 20}, "61440", "65536"},
		{Config{Memory: 64 << 20, Folder: "/f"}, "262144", "262144"},
	}
	for _, test := range tests {
		arguments := test.config.command("davd").Args // sh -c script sh soft hard davd
		if soft, hard := arguments[4], arguments[5]; soft != test.soft || hard != test.hard {
			t.Errorf("%+v: %s and %s, want %s and %s", test.config, soft, hard, test.soft, test.hard)
		}
	}
	if arguments := (Config{}).command("davd").Args; len(arguments) != 5 || arguments[4] != "davd" {
		t.Errorf("without a limit: %q", arguments)
	}
}
