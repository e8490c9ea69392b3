package davd

import (
	"errors"
	"strconv"
	"sync"
	"sync/atomic"
	"testing"

	"davserve/internal/frame"
)

// versions are access rules that are numbers, each greater than the last.
type versions struct {
	asked atomic.Int64 // the greatest that was sent
	set   atomic.Int64 // the greatest that was set
}

// setAll sets rules one after the other, until stop is closed.
func (v *versions) setAll(t *testing.T, engine *Engine, stop <-chan struct{}) {
	for n := v.set.Load() + 1; ; n++ {
		select {
		case <-stop:
			return
		default:
		}
		v.asked.Store(n)
		switch err := engine.SetRights(soon(t), strconv.FormatInt(n, 10)); {
		case err == nil:
			v.set.Store(n)
		case !errors.Is(err, ErrLost) && !errors.Is(err, ErrFull):
			t.Errorf("rules %d: %v", n, err)
			return
		}
	}
}

// check sends a request. It is served by no rules that are older than those which were set before it.
func (v *versions) check(t *testing.T, engine *Engine, f frame.Frame) {
	least := v.set.Load()
	reply, err := engine.Do(soon(t), f)
	if err != nil {
		return // davd has ended, which other tests look at.
	}
	got, err := strconv.ParseInt(rightsOf(t, reply), 10, 64)
	if most := v.asked.Load(); err != nil || got < least || got > most {
		t.Errorf("a request is served by the rules %d, want %d to %d: %v", got, least, most, err)
	}
}

func TestNoDavdServesByOlderAccessRules(t *testing.T) {
	config, folder, _ := overFolder(t, "crashes", quickOver)
	config.Rights = "0"
	engine, err := Start(soon(t), config)
	for err != nil { // It ends before it has answered.
		engine, err = Start(soon(t), config)
	}
	defer closeSoon(t, engine)
	var v versions
	stop := make(chan struct{})
	var setter, group sync.WaitGroup
	setter.Add(1)
	go func() {
		defer setter.Done()
		v.setAll(t, engine, stop)
	}()
	for i := 0; i < 8; i++ {
		group.Add(1)
		go func() {
			defer group.Done()
			for k := 0; k < 50; k++ {
				v.check(t, engine, change)
				v.check(t, engine, look)
			}
		}()
	}
	group.Wait()
	close(stop)
	setter.Wait()
	if starts, set := folder.get("starts"), v.set.Load(); starts < 5 || set < 5 {
		t.Errorf("%d davds were started, and %d rules were set", starts, set)
	}
}
