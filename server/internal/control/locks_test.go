package control

import (
	"context"
	"errors"
	"fmt"
	"io"
	"path/filepath"
	"strings"
	"testing"
	"time"

	"davserve"
	"davserve/internal/davd"
)

// A keeper has locks, and makes no backups and no checks.
type keeper struct {
	source
	locks []davserve.Lock
	err   error // of each call
}

// Backup implements Source.
func (k *keeper) Backup(context.Context, io.Writer) error { return davserve.ErrNoFolder }

// Locks implements Source.
func (k *keeper) Locks(context.Context) ([]davserve.Lock, error) { return k.locks, k.err }

// RemoveLock implements Source.
func (k *keeper) RemoveLock(_ context.Context, token string) error {
	if k.err != nil {
		return k.err
	}
	for i, lock := range k.locks {
		if lock.Token == token {
			k.locks = append(k.locks[:i:i], k.locks[i+1:]...)
			return nil
		}
	}
	return davserve.ErrNoLock
}

func TestLocksAreListed(t *testing.T) {
	name, moment := "<ada>", time.Unix(1_000_000_000, 0).UTC()
	tests := []struct {
		locks []davserve.Lock
		want  string
	}{
		{nil, "[]\n"},
		{
			[]davserve.Lock{
				{Token: "urn:1", Path: "/a%20b", Principal: &name, Deep: true, Expires: &moment},
				{Token: "urn:2", Path: "/", Shared: true},
			},
			`[{"token":"urn:1","path":"/a%20b","principal":"\u003cada\u003e","deep":true,"shared":false,` +
				`"expires":"2001-09-09T01:46:40Z"},` +
				`{"token":"urn:2","path":"/","principal":null,"deep":false,"shared":true,"expires":null}]` + "\n",
		},
	}
	for _, test := range tests {
		f := start(t, context.Background(), &keeper{locks: test.locks})
		if got, err := ListLocks(soon(t), f.socket); err != nil || string(got) != test.want {
			t.Errorf("%s, %v, want %s", got, err, test.want)
		}
	}
}

func TestALockIsRemoved(t *testing.T) {
	const odd = "urn:x?a=1&b=%2F+c;d#e \u00e9"
	locks := &keeper{locks: []davserve.Lock{{Token: "urn:1"}, {Token: odd}, {Token: "urn:2"}}}
	f := start(t, context.Background(), locks)
	if err := RemoveLock(soon(t), f.socket, odd); err != nil {
		t.Fatal(err)
	}
	if err := RemoveLock(soon(t), f.socket, odd); !errors.Is(err, davserve.ErrNoLock) {
		t.Errorf("once more: %v", err)
	}
	if len(locks.locks) != 2 || locks.locks[0].Token != "urn:1" || locks.locks[1].Token != "urn:2" {
		t.Errorf("%+v are left", locks.locks)
	}
}

func TestLocksThatAreNotKnownHaveAStatus(t *testing.T) {
	tests := []struct {
		err    error
		status int
	}{
		{davd.ErrDown, 503},
		{davd.ErrClosed, 503},
		{davd.ErrLost, 503},
		{davd.ErrFull, 507},
		{davd.ErrUnknown, 500},
		{&davd.StatusError{Status: 507}, 500},
	}
	for _, test := range tests {
		f := start(t, context.Background(), &keeper{err: test.err})
		want := fmt.Sprintf("%v (status %d)", test.err, test.status)
		if _, err := ListLocks(soon(t), f.socket); err == nil || err.Error() != "the server lists no locks: "+want {
			t.Errorf("ListLocks: %v, want %s", err, want)
		}
		err := RemoveLock(soon(t), f.socket, "urn:1")
		if err == nil || err.Error() != "the server does not remove the lock: "+want {
			t.Errorf("RemoveLock: %v, want %s", err, want)
		}
	}
}

func TestWithoutAServerThereIsNoAnswer(t *testing.T) {
	socket := filepath.Join(t.TempDir(), "control")
	if _, err := ListLocks(soon(t), socket); err == nil || !strings.Contains(err.Error(), "no server answers at "+socket) {
		t.Errorf("ListLocks: %v", err)
	}
	if err := RemoveLock(soon(t), socket, "urn:1"); err == nil || !strings.Contains(err.Error(), "no server answers") {
		t.Errorf("RemoveLock: %v", err)
	}
	if _, err := ListLocks(soon(t), "/"+strings.Repeat("x", 200)); err == nil || !strings.Contains(err.Error(), "at most") {
		t.Errorf("a long path: %v", err)
	}
}

func TestLocksAreListedDuringABackup(t *testing.T) {
	f := start(t, context.Background(), source(waiting))
	ctx, cancel := context.WithCancel(soon(t))
	result := make(chan error)
	go func() { result <- f.fetch(t, ctx) }()
	f.await(t, "running")
	if got, err := ListLocks(soon(t), f.socket); err != nil || string(got) != "[]\n" {
		t.Errorf("%s, %v", got, err)
	}
	cancel()
	<-result
}

func TestAServerInMemoryMakesNoBackup(t *testing.T) {
	f := start(t, context.Background(), &keeper{})
	if err := f.fetch(t, soon(t)); err == nil || !strings.Contains(err.Error(), davserve.ErrNoFolder.Error()) {
		t.Errorf("Fetch: %v", err)
	}
	if got, err := ListLocks(soon(t), f.socket); err != nil || string(got) != "[]\n" {
		t.Errorf("ListLocks: %s, %v", got, err)
	}
}
