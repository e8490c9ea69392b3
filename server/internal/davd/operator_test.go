package davd

import (
	"errors"
	"fmt"
	"strings"
	"sync"
	"testing"
	"time"

	"davserve/internal/frame"
)

// startOperator starts an engine over fake davds with access rules, and returns an operator of it.
func startOperator(t *testing.T, acts, rights string) (*Engine, *Operator, *logged) {
	t.Helper()
	config, _, said := overFolder(t, acts, quickOver)
	engine := startWith(t, config, rights)
	operator, err := engine.NewOperator()
	if err != nil {
		t.Fatal(err)
	}
	return engine, operator, said
}

// rulesOfOperator returns the access rules by which a request of an operator was served.
func rulesOfOperator(t *testing.T, operator *Operator) string {
	t.Helper()
	asked := *look
	response, err := operator.Each(soon(t), &asked, func(*frame.Element) {})
	if err != nil {
		t.Fatal(err)
	}
	if asked.Principal == nil || *asked.Principal != operator.principal {
		t.Errorf("the principal is %v", asked.Principal)
	}
	return rightsOf(t, response)
}

func TestAnOperatorIsServedByRulesOfItsOwn(t *testing.T) {
	engine, operator, _ := startOperator(t, "sound", "one")
	for i := 0; i < 3; i++ {
		if got := rulesOfOperator(t, operator); got != operator.rules || !strings.Contains(got, operator.principal) {
			t.Errorf("the operator is served by the rules %q", got)
		}
		wantRights(t, engine, "one")
	}
	if err := engine.SetRights(soon(t), "two"); err != nil {
		t.Fatal(err)
	}
	rulesOfOperator(t, operator)
	wantRights(t, engine, "two")
	kill(t, engine)
	rulesOfOperator(t, operator)
	wantRights(t, engine, "two")
	if engine.Started() != 1 {
		t.Errorf("davd was started again %d times", engine.Started())
	}
}

func TestWithoutAccessRulesAnOperatorSetsNone(t *testing.T) {
	engine, operator, _ := startOperator(t, "sound", "")
	if got := rulesOfOperator(t, operator); got != "" {
		t.Errorf("the operator is served by the rules %q", got)
	}
	wantRights(t, engine, "")
}

// Whatever clients and an operator do at once, while rules are replaced, each is served by the rules for it.
func TestNoClientIsServedByTheRulesOfAnOperator(t *testing.T) {
	engine, operator, _ := startOperator(t, "sound", "rules 0")
	var others sync.WaitGroup
	repeat := func(do func(i int) error) {
		others.Add(1)
		go func() {
			defer others.Done()
			for i := 0; i < 150; i++ {
				if err := do(i); err != nil {
					t.Error(err)
					return
				}
			}
		}()
	}
	for n := 0; n < 8; n++ {
		repeat(func(int) error {
			reply, err := engine.Do(soon(t), look)
			if err != nil {
				return err
			}
			if got := rightsOf(t, reply); !strings.HasPrefix(got, "rules ") {
				return fmt.Errorf("a client is served by the rules %q", got)
			}
			return nil
		})
	}
	for n := 0; n < 2; n++ {
		repeat(func(int) error {
			asked := *look
			response, err := operator.Each(soon(t), &asked, func(*frame.Element) {})
			if err == nil && rightsOf(t, response) != operator.rules {
				err = fmt.Errorf("the operator is served by the rules %q", rightsOf(t, response))
			}
			return err
		})
	}
	repeat(func(i int) error { return engine.SetRights(soon(t), fmt.Sprint("rules ", i+1)) })
	others.Wait()
	wantRights(t, engine, "rules 150")
	if engine.Started() != 0 {
		t.Errorf("davd was started again %d times", engine.Started())
	}
}

func TestADavdWithoutItsAccessRulesIsKilled(t *testing.T) {
	engine, operator, said := startOperator(t, "sound", "once")
	rulesOfOperator(t, operator)
	wantRights(t, engine, "once")
	if engine.Started() != 1 {
		t.Errorf("davd was started again %d times", engine.Started())
	}
	if !strings.Contains(said.String(), "does not serve by its access rules any more") {
		t.Errorf("the log is %q", said)
	}
}

func TestAnOperatorWithoutItsRulesGetsNoReply(t *testing.T) {
	engine, operator, _ := startOperator(t, "sound", "no operator")
	asked := *look
	var failed *StatusError
	if response, err := operator.Each(soon(t), &asked, func(*frame.Element) {}); !errors.As(err, &failed) || failed.Status != 507 {
		t.Errorf("Each: %+v, %v", response, err)
	}
	wantRights(t, engine, "no operator")
	if engine.Started() != 0 {
		t.Errorf("davd was started again %d times", engine.Started())
	}
}

func TestTheEndOfDavdIsSaidToAnOperator(t *testing.T) {
	engine, operator, _ := startOperator(t, "ends for an operator, sound", "one")
	asked := *look
	if _, err := operator.Each(soon(t), &asked, func(*frame.Element) {}); !errors.Is(err, ErrLost) {
		t.Errorf("Each: %v", err)
	}
	wantRights(t, engine, "one")
	if got := rulesOfOperator(t, operator); got != operator.rules {
		t.Errorf("then the operator is served by the rules %q", got)
	}
}

func TestAReadOfAnOperator(t *testing.T) {
	for _, rights := range []string{"", "one"} {
		_, operator, _ := startOperator(t, "sound", rights)
		var failed *StatusError
		if reply, err := operator.Read(soon(t), frame.Read{Path: "/a"}); !errors.As(err, &failed) || failed.Status != 404 {
			t.Errorf("%q: %+v, %v", rights, reply, err)
		}
		// The read is answered before the batch that it was in.
		for ctx := soon(t); operator.IsBusy(); time.Sleep(time.Millisecond) {
			if ctx.Err() != nil {
				t.Fatalf("%q: davd is busy", rights)
			}
		}
	}
}
