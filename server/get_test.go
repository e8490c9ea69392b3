package davserve

import (
	"context"
	"net/http"
	"net/http/httptest"
	"strings"
	"testing"

	"davserve/internal/frame"
)

// firstPart reads the first bytes of a file.
func firstPart(t *testing.T, h *Handler, read frame.Read) *frame.Part {
	t.Helper()
	reply, err := h.engine.Do(context.Background(), read)
	part, ok := reply.(frame.Part)
	if err != nil || !ok {
		t.Fatalf("%s: %v, %v", read.Path, reply, err)
	}
	return &part
}

func TestAGetThatFailsBeforeItsFirstByteHasAStatus(t *testing.T) {
	none := "none"
	tests := []struct {
		name   string
		spoil  func(h *Handler, read *frame.Read, first *frame.Part, started *uint64)
		status int
	}{
		{"nothing", func(*Handler, *frame.Read, *frame.Part, *uint64) {}, 206},
		{"another davd", func(_ *Handler, _ *frame.Read, _ *frame.Part, started *uint64) { *started++ }, 503},
		{"another tag", func(_ *Handler, _ *frame.Read, first *frame.Part, _ *uint64) { first.ETag = &none }, 503},
		{"another length", func(_ *Handler, _ *frame.Read, first *frame.Part, _ *uint64) { first.Length++ }, 503},
		{"no file", func(_ *Handler, read *frame.Read, _ *frame.Part, _ *uint64) { read.Path = "/none" }, 404},
		{"no davd", func(h *Handler, _ *frame.Read, _ *frame.Part, _ *uint64) { h.Close(context.Background()) }, 503},
	}
	for _, test := range tests {
		t.Run(test.name, func(t *testing.T) {
			h := startHandler(t, Options{})
			put(t, h, "/f", "<!DOCTYPE html><html>")
			read, started := frame.Read{Path: "/f"}, h.engine.Started()
			first := firstPart(t, h, read)
			test.spoil(h, &read, first, &started)
			w, r := httptest.NewRecorder(), httptest.NewRequest("GET", "/f", nil)
			r.Header.Set("Range", "bytes=1-8")
			if err := h.serveFile(w, r, read, first, started); err != nil {
				h.fail(w, r, err)
			}
			if w.Code != test.status {
				t.Fatalf("status %d, want %d", w.Code, test.status)
			}
			if test.status == 206 {
				return
			}
			if want := http.StatusText(test.status) + "\n"; !strings.HasSuffix(w.Body.String(), want) {
				t.Errorf("the body is %q", w.Body)
			}
			for _, name := range fileFields {
				if value := w.Header().Get(name); value != "" && !strings.HasPrefix(name, "Content-Type") {
					t.Errorf("it has %s: %s", name, value)
				}
			}
			if after := w.Header().Get("Retry-After"); (after != "") != (test.status == 503) {
				t.Errorf("Retry-After: %s", after)
			}
		})
	}
}

func TestAGetThatFailsLaterIsBrokenOff(t *testing.T) {
	h := startHandler(t, Options{})
	put(t, h, "/f", strings.Repeat("x", piece+1))
	for _, test := range []struct {
		name, ranges string
		count        uint64
	}{
		{"behind a piece", "", piece},
		{"behind the head of a part", "bytes=1-2,4-5", 0},
	} {
		t.Run(test.name, func(t *testing.T) {
			read := frame.Read{Path: "/f", Count: test.count}
			first := firstPart(t, h, read)
			w, r := httptest.NewRecorder(), httptest.NewRequest("GET", "/f", nil)
			r.Header.Set("Range", test.ranges)
			defer func() {
				if recovered := recover(); recovered != http.ErrAbortHandler || w.Body.Len() == 0 {
					t.Errorf("%v after %d bytes", recovered, w.Body.Len())
				}
			}()
			err := h.serveFile(w, r, read, first, h.engine.Started()+1)
			t.Errorf("it returns %v", err)
		})
	}
}

func TestALateWriterWritesItsStatusOnce(t *testing.T) {
	tests := []struct {
		name  string
		write func(*lateWriter)
		code  int
		body  string
	}{
		{"a status and a body", func(w *lateWriter) { w.WriteHeader(206); w.Write([]byte("a")); w.Write([]byte("b")) }, 206, "ab"},
		{"a status alone", func(w *lateWriter) { w.WriteHeader(304) }, 304, ""},
		{"a body alone", func(w *lateWriter) { w.Write([]byte("a")) }, 200, "a"},
		{"two statuses", func(w *lateWriter) { w.WriteHeader(416); w.WriteHeader(200) }, 416, ""},
		{"nothing", func(w *lateWriter) {}, 200, ""},
	}
	for _, test := range tests {
		recorder := httptest.NewRecorder()
		w := &lateWriter{ResponseWriter: recorder}
		test.write(w)
		w.end()
		w.end()
		if recorder.Code != test.code || recorder.Body.String() != test.body {
			t.Errorf("%s: %d, %q", test.name, recorder.Code, recorder.Body)
		}
	}
}
