package davd

import (
	"strings"
	"testing"
	"time"
)

func TestABodyIsDroppedAgainAfterMemoryRanOut(t *testing.T) {
	engine, said := startFake(t, "no memory for a drop")
	body, err := engine.StartBody(soon(t))
	if err != nil {
		t.Fatal(err)
	}
	body.Drop()
	for end := time.Now().Add(5 * time.Second); !strings.Contains(said.String(), "a body is dropped"); {
		if time.Now().After(end) {
			t.Fatal("the body is left")
		}
		time.Sleep(time.Millisecond)
	}
}

func TestStartedTellsOneDavdFromTheNext(t *testing.T) {
	engine, _ := startFake(t, "ends after one")
	first, before := engine.Started(), processOf(t, engine)
	if engine.Started() != first {
		t.Error("the number changes while the same davd runs")
	}
	if processOf(t, engine) == before || engine.Started() == first {
		t.Error("the number of the next davd is that of the last")
	}
}
