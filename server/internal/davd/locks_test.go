package davd

import (
	"context"
	"errors"
	"reflect"
	"strings"
	"testing"

	"davserve/internal/frame"
)

func TestLocks(t *testing.T) {
	engine, _ := startFake(t, "sound")
	name, expires := "ada", uint64(60)
	want := []frame.Lock{
		{Token: "urn:1", Path: "/a%20b", Principal: &name, Deep: true, Expires: &expires},
		{Token: "urn:2", Path: "/", Shared: true},
	}
	if got, err := engine.Locks(soon(t)); err != nil || !reflect.DeepEqual(got, want) {
		t.Errorf("Locks: %+v, %v, want %+v", got, err, want)
	}
}

// changes are calls that davd answers with Done.
var changes = map[string]func(e *Engine, ctx context.Context, path string) error{
	"RemoveLock": func(e *Engine, ctx context.Context, path string) error {
		return e.RemoveLock(ctx, path, "urn:1")
	},
	"SetModified": func(e *Engine, ctx context.Context, path string) error {
		return e.SetModified(ctx, path, 60)
	},
}

func TestChangesAreDoneOrFail(t *testing.T) {
	engine, _ := startFake(t, "sound")
	for name, change := range changes {
		if err := change(engine, soon(t), "/a%20b"); err != nil {
			t.Errorf("%s: %v", name, err)
		}
		var failed *StatusError
		if err := change(engine, soon(t), "/none"); !errors.As(err, &failed) || failed.Status != 404 {
			t.Errorf("%s where nothing is: %v", name, err)
		}
		if err := change(engine, soon(t), "/wrong"); err == nil || !strings.Contains(err.Error(), "frame.Collection") {
			t.Errorf("%s with a wrong reply: %v", name, err)
		}
	}
}

func TestChangesAreNotSentAgain(t *testing.T) {
	for name, change := range changes {
		engine, _, _ := startOver(t, "ends, sound", quickOver)
		if err := change(engine, soon(t), "/a%20b"); !errors.Is(err, ErrLost) {
			t.Errorf("%s, and davd ends: %v", name, err)
		}
		if err := change(engine, soon(t), "/a%20b"); err != nil {
			t.Errorf("%s of the next davd: %v", name, err)
		}
	}
}

func TestLocksAreListedByTheNextDavd(t *testing.T) {
	engine, _, _ := startOver(t, "ends, sound", quickOver)
	if locks, err := engine.Locks(soon(t)); err != nil || len(locks) != 2 {
		t.Errorf("Locks: %v, %v", locks, err)
	}
}
