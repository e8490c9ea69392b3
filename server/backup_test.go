package davserve

import (
	"archive/tar"
	"bytes"
	"context"
	"errors"
	"io"
	"log"
	"net/http/httptest"
	"strings"
	"testing"
	"time"

	"davserve/internal/davd"
)

// startHandler starts a handler without a server.
func startHandler(t *testing.T, options Options) *Handler {
	t.Helper()
	options.Davd, options.Log = davdForTests(t), log.New(io.Discard, "", 0)
	handler, err := New(context.Background(), options)
	if err != nil {
		t.Fatal(err)
	}
	t.Cleanup(func() {
		ctx, cancel := context.WithTimeout(context.Background(), 5*time.Second)
		defer cancel()
		handler.Close(ctx)
	})
	return handler
}

// put makes a file.
func put(t *testing.T, handler *Handler, path, content string) {
	t.Helper()
	recorder := httptest.NewRecorder()
	handler.ServeHTTP(recorder, httptest.NewRequest("PUT", path, strings.NewReader(content)))
	if recorder.Code != 201 && recorder.Code != 204 {
		t.Fatalf("PUT %s: status %d", path, recorder.Code)
	}
}

func TestABackupIsAnArchive(t *testing.T) {
	handler := startHandler(t, Options{Folder: t.TempDir()})
	put(t, handler, "/a", "this is a file")
	var b bytes.Buffer
	if err := handler.Backup(context.Background(), &b); err != nil {
		t.Fatal(err)
	}
	archive, names := tar.NewReader(&b), []string{}
	for {
		header, err := archive.Next()
		if err == io.EOF {
			break
		}
		if err != nil {
			t.Fatal(err)
		}
		names = append(names, header.Name)
		content, err := io.ReadAll(archive)
		if err != nil {
			t.Fatal(err)
		}
		if header.Name == "data" && !bytes.Contains(content, []byte("this is a file")) {
			t.Errorf("data is %q", content)
		}
	}
	const rest = " last last-wal data"
	if got := strings.Join(names, " "); got != "meta.db meta.db-wal"+rest && got != "meta.db"+rest {
		t.Errorf("the files are %s", got)
	}
}

func TestWithoutAFolderThereIsNoBackup(t *testing.T) {
	handler := startHandler(t, Options{})
	if err := handler.Backup(context.Background(), io.Discard); !errors.Is(err, ErrNoFolder) {
		t.Errorf("Backup: %v", err)
	}
}

// A writer is a function.
type writer func(p []byte) (int, error)

// Write implements io.Writer.
func (w writer) Write(p []byte) (int, error) { return w(p) }

func TestABackupThatFailsHasEnded(t *testing.T) {
	handler := startHandler(t, Options{Folder: t.TempDir()})
	put(t, handler, "/a", strings.Repeat("x", 1<<20))
	ctx, cancel := context.WithCancel(context.Background())
	failure := errors.New("the disk is full")
	tests := []struct {
		name string
		ctx  context.Context
		w    writer
		want error
	}{
		{"the writer fails", context.Background(), func(p []byte) (int, error) { return 0, failure }, failure},
		{"another backup is under way", context.Background(), func(p []byte) (int, error) {
			return 0, handler.Backup(context.Background(), io.Discard)
		}, davd.ErrInBackup},
		{"the context is done", ctx, func(p []byte) (int, error) { cancel(); return len(p), nil }, context.Canceled},
	}
	for _, test := range tests {
		if err := handler.Backup(test.ctx, test.w); !errors.Is(err, test.want) {
			t.Errorf("%s: %v", test.name, err)
		}
		put(t, handler, "/a", "the server goes on")
		if err := handler.Backup(context.Background(), io.Discard); err != nil {
			t.Errorf("%s, and the next backup: %v", test.name, err)
		}
	}
}

// expectPanic calls a function that must panic with this value.
func expectPanic(t *testing.T, want any, f func()) {
	t.Helper()
	defer func() {
		if got := recover(); got != want {
			t.Errorf("recovered %v, want %v", got, want)
		}
	}()
	f()
}

func TestABackupWhoseWriterPanicsHasEnded(t *testing.T) {
	handler := startHandler(t, Options{Folder: t.TempDir()})
	put(t, handler, "/a", "this is a file")
	expectPanic(t, "a wrong index", func() {
		handler.Backup(context.Background(), writer(func([]byte) (int, error) { panic("a wrong index") }))
	})
	put(t, handler, "/a", "the server goes on")
	if err := handler.Backup(context.Background(), io.Discard); err != nil {
		t.Errorf("the next backup: %v", err)
	}
}
