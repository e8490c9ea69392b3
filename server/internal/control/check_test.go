package control

import (
	"bufio"
	"context"
	"encoding/json"
	"errors"
	"fmt"
	"io"
	"net/http"
	"path/filepath"
	"reflect"
	"strings"
	"testing"
	"time"

	"davserve"
	"davserve/internal/davd"
)

// A checker checks files as a function does.
type checker struct {
	source
	check check
}

// CheckFiles implements Source.
func (c checker) CheckFiles(ctx context.Context, o davserve.CheckOptions) (davserve.CheckState, error) {
	return c.check(ctx, o)
}

// A check checks files.
type check = func(context.Context, davserve.CheckOptions) (davserve.CheckState, error)

// startChecker starts a server that checks files as a function does.
func startChecker(t *testing.T, ctx context.Context, check check) fixture {
	t.Helper()
	return start(t, ctx, checker{check: check})
}

var (
	moment  = time.Unix(1_000_000_000, 0).UTC()
	running = davserve.CheckState{State: "running", Began: &moment}
)

// ended returns the state of a check that has ended.
func ended(reason string, counts davserve.CheckCounts) davserve.CheckState {
	later := moment.Add(time.Minute)
	state := davserve.CheckState{State: "done", Began: &moment, Ended: &later, CheckCounts: counts, Error: reason}
	if reason != "" {
		state.State = "failed"
	}
	return state
}

func TestACheckSendsWhatItFinds(t *testing.T) {
	done := ended("", davserve.CheckCounts{Files: 3, Bytes: 5, Damaged: 1})
	found := davserve.CheckFinding{Kind: davserve.CheckDamaged, Path: "/a%20b"}
	f := startChecker(t, context.Background(), func(_ context.Context, o davserve.CheckOptions) (davserve.CheckState, error) {
		if o.Rate != 1000 {
			t.Errorf("the rate is %d", o.Rate)
		}
		o.Progress(running)
		o.Report(found)
		return done, nil
	})
	var events []CheckEvent
	state, err := Check(soon(t), f.socket, 1000, func(e CheckEvent) { events = append(events, e) })
	if want := []CheckEvent{{State: &running}, {Found: &found}}; err != nil || !reflect.DeepEqual(events, want) {
		t.Errorf("%+v, %v", events, err)
	}
	if !reflect.DeepEqual(state, done) {
		t.Errorf("the last state is %+v, want %+v", state, done)
	}
}

func TestACheckThatIsNotBegunHasAStatus(t *testing.T) {
	tests := []struct {
		err    error
		status int
	}{
		{davserve.ErrInCheck, 409},
		{davserve.ErrNothingOnDisk, 500},
		{davd.ErrClosed, 503},
	}
	for _, test := range tests {
		// Another check may be under way, whose state is not that of this one.
		f := startChecker(t, context.Background(), func(context.Context, davserve.CheckOptions) (davserve.CheckState, error) {
			return running, test.err
		})
		_, err := Check(soon(t), f.socket, 0, func(e CheckEvent) { t.Errorf("the event %+v", e) })
		if want := fmt.Sprintf("the server checks nothing: %v (status %d)", test.err, test.status); err == nil || err.Error() != want {
			t.Errorf("%v, want %s", err, want)
		}
	}
}

func TestACheckThatEndsEarlySaysWhy(t *testing.T) {
	f := startChecker(t, context.Background(), func(_ context.Context, o davserve.CheckOptions) (davserve.CheckState, error) {
		o.Progress(running)
		return ended(davd.ErrDown.Error(), davserve.CheckCounts{Files: 1}), davd.ErrDown
	})
	state, err := Check(soon(t), f.socket, 0, func(CheckEvent) {})
	if err != nil || state.Error != davd.ErrDown.Error() || state.Files != 1 {
		t.Errorf("%+v, %v", state, err)
	}
}

func TestAClientThatLeavesEndsItsCheck(t *testing.T) {
	result := make(chan error)
	f := startChecker(t, context.Background(), func(ctx context.Context, o davserve.CheckOptions) (davserve.CheckState, error) {
		o.Progress(running)
		<-ctx.Done()
		result <- ctx.Err()
		return ended("it was interrupted", davserve.CheckCounts{}), ctx.Err()
	})
	ctx, cancel := context.WithCancel(soon(t))
	_, err := Check(ctx, f.socket, 0, func(CheckEvent) { cancel() })
	if !errors.Is(err, context.Canceled) {
		t.Errorf("Check: %v", err)
	}
	select {
	case <-result:
	case <-time.After(10 * time.Second):
		t.Error("the check goes on")
	}
}

func TestTheEndOfTheServerEndsACheck(t *testing.T) {
	ctx, cancel := context.WithCancel(context.Background())
	f := startChecker(t, ctx, func(ctx context.Context, o davserve.CheckOptions) (davserve.CheckState, error) {
		o.Progress(running)
		<-ctx.Done()
		return ended("it was interrupted", davserve.CheckCounts{}), ctx.Err()
	})
	state, err := Check(soon(t), f.socket, 0, func(CheckEvent) { cancel() })
	if err != nil || state.Error != "the server ends" {
		t.Errorf("%+v, %v", state, err)
	}
}

func TestAResponseWithoutAnEndIsNoCheck(t *testing.T) {
	for _, text := range []string{"", "{}\n", `{"state":{"state":"running"}}` + "\n", "none\n"} {
		socket := filepath.Join(t.TempDir(), "control")
		listener, err := Listen(socket)
		if err != nil {
			t.Fatal(err)
		}
		go func() {
			connection, err := listener.Accept()
			if err != nil {
				return
			}
			http.ReadRequest(bufio.NewReader(connection))
			io.WriteString(connection, "HTTP/1.0 200 OK\r\n\r\n"+text)
			connection.Close()
		}()
		if _, err := Check(soon(t), socket, 0, func(CheckEvent) {}); err == nil || !strings.Contains(err.Error(), "broke the check off") {
			t.Errorf("%q: %v", text, err)
		}
		listener.Close()
	}
	if _, err := Check(soon(t), "/no/such/socket", 0, nil); err == nil || !strings.Contains(err.Error(), "no server answers") {
		t.Errorf("without a server: %v", err)
	}
	if _, err := Check(soon(t), "/"+strings.Repeat("x", 200), 0, nil); err == nil || !strings.Contains(err.Error(), "at most") {
		t.Errorf("a long path: %v", err)
	}
}

func TestTheStateOfTheLastCheck(t *testing.T) {
	f := start(t, context.Background(), source(whole))
	response, err := send(soon(t), clientOf(f.socket), http.MethodGet, filesPath)
	if err != nil {
		t.Fatal(err)
	}
	defer response.Body.Close()
	var state davserve.CheckState
	if err := json.NewDecoder(response.Body).Decode(&state); err != nil || state.State != "none" {
		t.Errorf("%+v, %v", state, err)
	}
}
