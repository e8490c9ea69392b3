package davd

import (
	"errors"
	"strings"
	"testing"
	"time"

	"davserve/internal/frame"
)

// startBody begins a body.
func startBody(t *testing.T, engine *Engine) *Body {
	t.Helper()
	body, err := engine.StartBody(soon(t))
	if err != nil {
		t.Fatal(err)
	}
	return body
}

func TestARequestAndItsLastPieceAreOneBatch(t *testing.T) {
	tests := []struct {
		name   string
		last   string
		frames string // in the batch of the request, with the one that begins a body for later
	}{
		{"a piece", "piece", "4"},
		{"no piece", "", "3"},
	}
	for _, test := range tests {
		t.Run(test.name, func(t *testing.T) {
			engine, said := startFake(t, "shows drops")
			body := startBody(t, engine)
			reply, err := body.Do(soon(t), []byte(test.last), &frame.Request{Method: "PUT", Path: "/a"})
			if err != nil {
				t.Fatal(err)
			}
			if response, ok := reply.(frame.Response); !ok || response.Status != 201 {
				t.Errorf("the reply to the request is %v", reply)
			}
			awaitLog(t, said, "a body is dropped, frame "+test.frames+" of a batch")
			body.Drop() // It is dropped already.
			time.Sleep(50 * time.Millisecond)
			if count := strings.Count(said.String(), "a body is dropped"); count != 1 {
				t.Errorf("the body was dropped %d times:\n%s", count, said)
			}
		})
	}
}

func TestALastPieceThatFailsIsTheError(t *testing.T) {
	engine, _ := startFake(t, "no memory for a piece")
	body := startBody(t, engine)
	defer body.Drop()
	_, err := body.Do(soon(t), []byte("piece"), &frame.Request{Method: "PUT", Path: "/a"})
	var failed *StatusError
	if !errors.As(err, &failed) || failed.Status != 507 {
		t.Errorf("the request: %v", err)
	}
}

func TestABodyIsDroppedAfterItsBatchFailed(t *testing.T) {
	engine, said := startFake(t, "no memory for a request")
	body := startBody(t, engine)
	_, err := body.Do(soon(t), []byte("piece"), &frame.Request{Method: "PUT", Path: "/a"})
	var failed *StatusError
	if !errors.As(err, &failed) || failed.Status != 507 {
		t.Errorf("the request: %v", err)
	}
	body.Drop()
	awaitLog(t, said, "a body is dropped, frame 1 of a batch")
}

// spares returns how many bodies wait for later uploads.
func spares(engine *Engine) int {
	engine.mu.Lock()
	defer engine.mu.Unlock()
	return len(engine.spares)
}

func TestTheNextBodyIsBegunWithARequest(t *testing.T) {
	engine, _ := startFake(t, "sound")
	first := startBody(t, engine)
	if _, err := first.Do(soon(t), nil, &frame.Request{Method: "PUT", Path: "/a"}); err != nil {
		t.Fatal(err)
	}
	if count := spares(engine); count != 1 {
		t.Fatalf("%d bodies wait, want 1", count)
	}
	engine.mu.Lock()
	before := engine.queued
	engine.mu.Unlock()
	second := startBody(t, engine)
	if count := spares(engine); count != 0 {
		t.Errorf("%d bodies wait after one was taken", count)
	}
	engine.mu.Lock()
	defer engine.mu.Unlock()
	if engine.queued != before {
		t.Error("a body that waited was begun once more")
	}
	if second.process != engine.process {
		t.Error("the body is not one of this davd")
	}
}

func TestBodiesThatWaitAreBounded(t *testing.T) {
	engine, said := startFake(t, "shows drops")
	bodies := make([]*Body, spareBodies+3)
	for i := range bodies {
		bodies[i] = startBody(t, engine)
	}
	for _, body := range bodies {
		if _, err := body.Do(soon(t), nil, &frame.Request{Method: "PUT", Path: "/a"}); err != nil {
			t.Fatal(err)
		}
	}
	if count := spares(engine); count != spareBodies {
		t.Errorf("%d bodies wait, want %d", count, spareBodies)
	}
	engine.addSpare(startedBy(engine)) // Its request was sent when there was room for one more.
	if count := spares(engine); count != spareBodies {
		t.Errorf("%d bodies wait after one too many, want %d", count, spareBodies)
	}
	awaitLog(t, said, "a body is dropped, frame 1 of a batch")
}

// startedBy returns a body of the davd that runs.
func startedBy(engine *Engine) *Body {
	engine.mu.Lock()
	defer engine.mu.Unlock()
	return &Body{engine: engine, process: engine.process, number: 1}
}

func TestBodiesThatWaitEndWithTheirDavd(t *testing.T) {
	engine, _ := startFake(t, "sound")
	body := startBody(t, engine)
	if _, err := body.Do(soon(t), nil, &frame.Request{Method: "PUT", Path: "/a"}); err != nil {
		t.Fatal(err)
	}
	before := processOf(t, engine)
	old := startedBy(engine)
	old.process.kill()
	for processOf(t, engine) == before {
		time.Sleep(time.Millisecond)
	}
	if count := spares(engine); count != 0 {
		t.Errorf("%d bodies of the last davd wait", count)
	}
	engine.addSpare(old)
	if count := spares(engine); count != 0 {
		t.Error("a body of the last davd waits for an upload")
	}
}

func TestAFullDavdGivesNoBodyThatWaited(t *testing.T) {
	engine, _ := startFake(t, "sound")
	body := startBody(t, engine)
	if _, err := body.Do(soon(t), nil, &frame.Request{Method: "PUT", Path: "/a"}); err != nil {
		t.Fatal(err)
	}
	engine.mu.Lock()
	engine.process.isFull = true
	engine.mu.Unlock()
	if _, err := engine.StartBody(soon(t)); !errors.Is(err, errNoMemory) {
		t.Errorf("a body of a davd that is full: %v", err)
	}
}
