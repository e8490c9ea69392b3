package control

import (
	"archive/tar"
	"bufio"
	"bytes"
	"context"
	"encoding/json"
	"errors"
	"fmt"
	"io"
	"io/fs"
	"log"
	"net"
	"net/http"
	"net/http/httptest"
	"os"
	"path/filepath"
	"strings"
	"sync"
	"sync/atomic"
	"syscall"
	"testing"
	"time"

	"davserve"
	"davserve/internal/davd"
)

// logged keeps what is logged.
type logged struct {
	mu   sync.Mutex
	text bytes.Buffer
}

func (l *logged) Write(p []byte) (int, error) {
	l.mu.Lock()
	defer l.mu.Unlock()
	return l.text.Write(p)
}

func (l *logged) String() string {
	l.mu.Lock()
	defer l.mu.Unlock()
	return l.text.String()
}

// A source makes backups as a function does, and has no locks and no files.
type source func(ctx context.Context, w io.Writer) error

// CheckFiles implements Source.
func (s source) CheckFiles(context.Context, davserve.CheckOptions) (davserve.CheckState, error) {
	return davserve.CheckState{State: "none"}, davserve.ErrNothingOnDisk
}

// Checked implements Source.
func (s source) Checked() davserve.CheckState { return davserve.CheckState{State: "none"} }

// Backup implements Source.
func (s source) Backup(ctx context.Context, w io.Writer) error { return s(ctx, w) }

// Locks implements Source.
func (s source) Locks(context.Context) ([]davserve.Lock, error) { return nil, nil }

// RemoveLock implements Source.
func (s source) RemoveLock(context.Context, string) error { return davserve.ErrNoLock }

// whole writes a whole backup.
func whole(_ context.Context, w io.Writer) error {
	archive := tar.NewWriter(w)
	for name, content := range map[string]string{"meta.db": "rows", "data": "content"} {
		archive.WriteHeader(&tar.Header{Typeflag: tar.TypeReg, Name: name, Size: int64(len(content)), Mode: 0o600})
		io.WriteString(archive, content)
	}
	return archive.Close()
}

// begin writes the begin of a backup.
func begin(w io.Writer) error {
	archive := tar.NewWriter(w)
	archive.WriteHeader(&tar.Header{Typeflag: tar.TypeReg, Name: "meta.db", Size: 1 << 20, Mode: 0o600})
	_, err := archive.Write(make([]byte, 500<<10))
	return err
}

// A fixture is a server that a test started.
type fixture struct {
	socket string
	server *Server
	said   *logged
}

// start starts a server.
func start(t *testing.T, ctx context.Context, source Source) fixture {
	t.Helper()
	f := fixture{socket: filepath.Join(t.TempDir(), "control"), said: &logged{}}
	listener, err := Listen(f.socket)
	if err != nil {
		t.Fatal(err)
	}
	f.server = Serve(ctx, listener, source, time.Minute, log.New(f.said, "", 0))
	t.Cleanup(func() { f.server.Close(soon(t)) })
	return f
}

// soon returns a context that bounds a test.
func soon(t *testing.T) context.Context {
	t.Helper()
	ctx, cancel := context.WithTimeout(context.Background(), 10*time.Second)
	t.Cleanup(cancel)
	return ctx
}

// fetch makes a backup, and checks that what it leaves is a backup, or nothing.
func (f fixture) fetch(t *testing.T, ctx context.Context) error {
	t.Helper()
	target := filepath.Join(t.TempDir(), "target")
	_, err := Fetch(ctx, f.socket, target)
	_, found := os.Stat(filepath.Join(target, "meta.db"))
	if (err == nil) != (found == nil) {
		t.Errorf("Fetch: %v, and meta.db: %v", err, found)
	}
	if _, found := os.Stat(target); err != nil && !errors.Is(found, fs.ErrNotExist) {
		t.Errorf("the target: %v", found)
	}
	return err
}

// state asks for the state of the last backup.
func (f fixture) state(t *testing.T) State {
	t.Helper()
	response, err := send(soon(t), clientOf(f.socket), http.MethodGet, backupPath)
	if err != nil {
		t.Fatal(err)
	}
	defer response.Body.Close()
	var state State
	if err := json.NewDecoder(response.Body).Decode(&state); err != nil {
		t.Fatal(err)
	}
	return state
}

// await waits until the last backup is in a state.
func (f fixture) await(t *testing.T, wanted string) State {
	t.Helper()
	for end := time.Now().Add(5 * time.Second); ; time.Sleep(time.Millisecond) {
		state := f.state(t)
		if state.State == wanted {
			return state
		}
		if time.Now().After(end) {
			t.Fatalf("the state is %+v, and not %s", state, wanted)
		}
	}
}

func TestFetchMakesABackup(t *testing.T) {
	f := start(t, context.Background(), source(whole))
	if state := f.state(t); state.State != "none" {
		t.Errorf("before: %+v", state)
	}
	target := filepath.Join(t.TempDir(), "target")
	sizes, err := Fetch(soon(t), f.socket, target)
	if err != nil || sizes.Database != 4 || sizes.Data != 7 {
		t.Fatalf("%+v, %v", sizes, err)
	}
	if content, err := os.ReadFile(filepath.Join(target, "data")); string(content) != "content" {
		t.Errorf("data is %q, %v", content, err)
	}
	if state := f.await(t, "done"); state.Bytes < 2048 || state.Began == nil || state.Ended == nil || state.Error != "" {
		t.Errorf("after: %+v", state)
	}
	if !strings.Contains(f.said.String(), "the backup is done") {
		t.Errorf("the log: %s", f.said)
	}
}

func TestABackupThatIsNotBegunHasAStatus(t *testing.T) {
	tests := []struct {
		err    error
		status int
	}{
		{davd.ErrInBackup, 409},
		{fmt.Errorf("davd ended during the backup: %w", davd.ErrFull), 507},
		{&fs.PathError{Op: "write", Path: "f", Err: syscall.ENOSPC}, 507},
		{davd.ErrDown, 503},
		{davd.ErrClosed, 503},
		{fs.ErrNotExist, 500},
	}
	for _, test := range tests {
		f := start(t, context.Background(), source(func(context.Context, io.Writer) error { return test.err }))
		err := f.fetch(t, soon(t))
		for _, want := range []string{"makes no backup: " + test.err.Error(), fmt.Sprintf("status %d", test.status)} {
			if err == nil || !strings.Contains(err.Error(), want) {
				t.Errorf("%v: %v, without %q", test.err, err, want)
			}
		}
		if state := f.state(t); state.State != "failed" || state.Error != test.err.Error() {
			t.Errorf("%v: %+v", test.err, state)
		}
	}
}

func TestABackupThatFailsInTheMiddleIsNone(t *testing.T) {
	failure := errors.New("davd ended during the backup")
	f := start(t, context.Background(), source(func(_ context.Context, w io.Writer) error {
		begin(w)
		return failure
	}))
	err := f.fetch(t, soon(t))
	if err == nil || err.Error() != "the server broke the backup off: "+failure.Error() {
		t.Errorf("Fetch: %v", err)
	}
	if !strings.Contains(f.said.String(), "the backup failed: "+failure.Error()) {
		t.Errorf("the log: %s", f.said)
	}
}

// waiting is a source that writes the begin of a backup and then waits for the end of its context.
func waiting(ctx context.Context, w io.Writer) error {
	begin(w)
	w.(*counter).writer.(http.Flusher).Flush()
	<-ctx.Done()
	return ctx.Err()
}

func TestOneBackupAtATime(t *testing.T) {
	f := start(t, context.Background(), source(waiting))
	ctx, cancel := context.WithCancel(soon(t))
	first := make(chan error)
	go func() { first <- f.fetch(t, ctx) }()
	f.await(t, "running")
	if err := f.fetch(t, soon(t)); err == nil || !strings.Contains(err.Error(), "another backup is under way (status 409)") {
		t.Errorf("the second: %v", err)
	}
	cancel()
	if err := <-first; err == nil {
		t.Error("the first backup is whole")
	}
	if state := f.await(t, "failed"); state.Error != "the client has left" {
		t.Errorf("after: %+v", state)
	}
}

func TestTheEndOfTheServerBreaksABackupOff(t *testing.T) {
	ctx, cancel := context.WithCancel(context.Background())
	f := start(t, ctx, source(waiting))
	result := make(chan error)
	go func() { result <- f.fetch(t, soon(t)) }()
	f.await(t, "running")
	cancel() // A signal arrives. The socket is closed later.
	if err := <-result; err == nil || err.Error() != "the server broke the backup off: the server ends" {
		t.Errorf("Fetch: %v", err)
	}
}

func TestCloseWaitsForTheBackup(t *testing.T) {
	ended := false
	f := start(t, context.Background(), source(func(ctx context.Context, w io.Writer) error {
		err := waiting(ctx, w)
		time.Sleep(20 * time.Millisecond) // as the end takes that is sent to davd
		ended = true
		return err
	}))
	result := make(chan error)
	go func() { result <- f.fetch(t, soon(t)) }()
	f.await(t, "running")
	if err := f.server.Close(soon(t)); err != nil || !ended {
		t.Errorf("Close: %v, and the backup has ended: %v", err, ended)
	}
	if err := <-result; err == nil {
		t.Error("the backup is whole")
	}
	if _, err := os.Lstat(f.socket); !errors.Is(err, fs.ErrNotExist) {
		t.Errorf("the socket: %v", err)
	}
	if err := f.fetch(t, soon(t)); err == nil || !strings.Contains(err.Error(), "no server answers at "+f.socket) {
		t.Errorf("without a server: %v", err)
	}
}

func TestOtherRequestsAreRefused(t *testing.T) {
	f := start(t, context.Background(), source(whole))
	client := clientOf(f.socket)
	for _, test := range []struct {
		method, url string
		status      int
	}{
		{"GET", host + "/", 404},
		{"PUT", host + backupPath, 405},
		{"HEAD", host + backupPath, 405},
		{"POST", host + locksPath, 405},
		{"PUT", host + filesPath, 405},
		{"POST", host + filesPath, 400},
		{"POST", host + filesPath + "?rate=-1", 400},
		{"POST", host + filesPath + "?rate=1M", 400},
		{"DELETE", host + locksPath, 400},
		{"DELETE", host + locksPath + "?token=", 400},
		{"DELETE", host + locksPath + "/?token=urn:1", 404},
	} {
		request, err := http.NewRequestWithContext(soon(t), test.method, test.url, nil)
		if err != nil {
			t.Fatal(err)
		}
		response, err := client.Do(request)
		if err != nil {
			t.Fatal(err)
		}
		response.Body.Close()
		if response.StatusCode != test.status {
			t.Errorf("%s %s: %d, want %d", test.method, test.url, response.StatusCode, test.status)
		}
	}
}

func TestAResponseWithoutAnEndIsNoBackup(t *testing.T) {
	socket := filepath.Join(t.TempDir(), "control")
	listener, err := Listen(socket)
	if err != nil {
		t.Fatal(err)
	}
	defer listener.Close()
	go func() {
		connection, err := listener.Accept()
		if err != nil {
			return
		}
		http.ReadRequest(bufio.NewReader(connection))
		io.WriteString(connection, "HTTP/1.0 200 OK\r\n\r\n")
		whole(nil, connection)
		connection.Close()
	}()
	if err := (fixture{socket: socket}).fetch(t, soon(t)); err == nil || !strings.Contains(err.Error(), "has no end") {
		t.Errorf("Fetch: %v", err)
	}
}

func TestListen(t *testing.T) {
	folder := t.TempDir()
	path := filepath.Join(folder, "control")
	first, err := Listen(path)
	if err != nil {
		t.Fatal(err)
	}
	if info, err := os.Lstat(path); err != nil || info.Mode() != fs.ModeSocket|0o600 {
		t.Errorf("%v, %v", info.Mode(), err)
	}
	if _, err := Listen(path); err == nil || !strings.Contains(err.Error(), "another process listens") {
		t.Errorf("a second one: %v", err)
	}
	first.(*net.UnixListener).SetUnlinkOnClose(false) // as if it was killed
	first.Close()
	next, err := Listen(path)
	if err != nil {
		t.Fatalf("after one that was killed: %v", err)
	}
	next.Close()
	if _, err := os.Lstat(path); !errors.Is(err, fs.ErrNotExist) {
		t.Errorf("after Close: %v", err)
	}
	os.WriteFile(path, nil, 0o600)
	if _, err := Listen(path); err == nil || !strings.Contains(err.Error(), "is no socket") {
		t.Errorf("over a file: %v", err)
	}
	long := filepath.Join(folder, strings.Repeat("x", 108-len(folder)-1))
	if _, err := Listen(long); err == nil || !strings.Contains(err.Error(), "108 bytes, at most 107") {
		t.Errorf("a long path: %v", err)
	}
	if longest, err := Listen(long[:107]); err != nil {
		t.Errorf("the longest path: %v", err)
	} else {
		longest.Close()
	}
}

func TestNothingBeginsOnceTheServerIsClosed(t *testing.T) {
	begun := func(context.Context, io.Writer) error { t.Error("a backup begins"); return nil }
	f := start(t, context.Background(), source(begun))
	if err := f.server.Close(soon(t)); err != nil {
		t.Fatal(err)
	}
	for _, url := range []string{host + backupPath, host + filesPath + "?rate=0"} {
		recorder := httptest.NewRecorder() // A request that arrived before, and whose handler runs only now.
		f.server.handler.ServeHTTP(recorder, httptest.NewRequest("POST", url, nil))
		if recorder.Code != 503 || recorder.Body.String() != "the server ends\n" {
			t.Errorf("POST %s: %d, %q", url, recorder.Code, recorder.Body)
		}
	}
	if state := f.server.handler.state; state.State != "none" {
		t.Errorf("the state is %+v", state)
	}
}

// The race detector sees whether a backup is counted while Close waits for those under way.
func TestABackupMayArriveWhileTheServerIsClosed(t *testing.T) {
	for i := 0; i < 50; i++ {
		var isClosed atomic.Bool
		f := start(t, context.Background(), source(func(context.Context, io.Writer) error {
			if isClosed.Load() {
				t.Error("a backup is under way after Close")
			}
			return nil
		}))
		var group sync.WaitGroup
		for k := 0; k < 4; k++ {
			group.Add(1)
			go func() {
				defer group.Done()
				f.server.handler.ServeHTTP(httptest.NewRecorder(), httptest.NewRequest("POST", host+backupPath, nil))
			}()
		}
		if err := f.server.Close(soon(t)); err != nil {
			t.Error(err)
		}
		isClosed.Store(true)
		group.Wait()
	}
}

func TestABackupThatPanicsHasEnded(t *testing.T) {
	backups := 0
	f := start(t, context.Background(), source(func(ctx context.Context, w io.Writer) error {
		if backups++; backups == 1 {
			panic("a wrong index")
		}
		return whole(ctx, w)
	}))
	if err := f.fetch(t, soon(t)); err == nil {
		t.Error("the backup is whole")
	}
	if state := f.state(t); state.State != "failed" || state.Error != errBroken.Error() || state.Ended == nil {
		t.Errorf("after a panic: %+v", state)
	}
	if err := f.fetch(t, soon(t)); err != nil {
		t.Errorf("the next backup: %v", err)
	}
}
