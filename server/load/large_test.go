package main

import (
	"bytes"
	"context"
	"encoding/json"
	"fmt"
	"io"
	"net/http"
	"net/http/httptest"
	"os"
	"path/filepath"
	"strings"
	"testing"
	"time"
)

func TestContent(t *testing.T) {
	for _, size := range []int64{1, largePiece, largePiece + 1, period, 2*period + 5} {
		file := newContent(size, 1)
		var sent bytes.Buffer
		if err := file.send(&sent); err != nil || int64(sent.Len()) != size {
			t.Errorf("%d bytes of %d were sent, %v", sent.Len(), size, err)
		}
		if repeated := sent.Bytes(); size > period && !bytes.Equal(repeated[period:], repeated[:size-period]) {
			t.Errorf("%d bytes do not repeat after %d", size, period)
		}
	}
	if bytes.Equal(newContent(1000, 1).at(0), newContent(1000, 2).at(0)) {
		t.Error("two seeds have the same content")
	}
}

func TestComparison(t *testing.T) {
	const size = period + 3*largePiece + 7
	var all bytes.Buffer
	if err := newContent(size, 1).send(&all); err != nil {
		t.Fatal(err)
	}
	changed := append([]byte(nil), all.Bytes()...)
	changed[period+1]++
	for _, c := range []struct {
		name     string
		received []byte
		want     bool
	}{
		{"the content", all.Bytes(), true},
		{"nothing", nil, false},
		{"all but the last byte", all.Bytes()[:size-1], false},
		{"one byte more", append(all.Bytes(), all.Bytes()[0]), false},
		{"another byte", changed, false},
		{"another content", newContent(size, 2).at(0), false},
	} {
		for _, piece := range []int{1000, largePiece, size + 1} {
			got := &comparison{content: newContent(size, 1)}
			// A comparison that differs still accepts everything.
			n, err := io.CopyBuffer(got, struct{ io.Reader }{bytes.NewReader(c.received)}, make([]byte, piece))
			if err != nil || n != int64(len(c.received)) || got.isEqual() != c.want {
				t.Errorf("%s in pieces of %d: %v, with %d bytes and %v, want %v", c.name, piece, got.isEqual(), n, err, c.want)
			}
		}
	}
}

// A keeper has one file. It answers a PUT with the status, and a GET with the file that change returns.
type keeper struct {
	put    int
	change func([]byte) []byte
	file   []byte
}

func (k *keeper) ServeHTTP(w http.ResponseWriter, r *http.Request) {
	body, _ := io.ReadAll(r.Body)
	switch {
	case r.URL.Path != largePath:
		w.WriteHeader(http.StatusCreated)
	case r.Method == http.MethodPut:
		k.file = body
		w.WriteHeader(k.put)
	case r.Method == http.MethodGet && k.file != nil:
		w.Write(k.change(k.file))
	case r.Method == http.MethodDelete && k.file != nil:
		k.file = nil
		w.WriteHeader(http.StatusNoContent)
	default:
		w.WriteHeader(http.StatusNotFound)
	}
}

func TestMeasureLarge(t *testing.T) {
	same := func(file []byte) []byte { return file }
	file := filepath.Join(t.TempDir(), "results")
	o := options{rounds: 2, size: 700_000, json: file}
	for _, k := range []*keeper{
		{put: http.StatusCreated, change: same},
		{put: http.StatusCreated, change: func(file []byte) []byte { return file[1:] }},
		{put: http.StatusInsufficientStorage, change: same},
	} {
		s := httptest.NewServer(k)
		defer s.Close()
		name := fmt.Sprint("s", len(o.servers))
		o.servers = append(o.servers, server{name: name, address: strings.TrimPrefix(s.URL, "http://")})
	}
	var out strings.Builder
	if err := run(context.Background(), o, &out, io.Discard); err != nil {
		t.Fatal(err)
	}
	if lines := strings.Count(out.String(), "\n"); lines != 2+3+1 {
		t.Errorf("the table has %d lines:\n%s", lines, out.String())
	}
	text, err := os.ReadFile(file)
	if err != nil {
		t.Fatal(err)
	}
	var report struct{ Rows []jsonRow }
	if err := json.Unmarshal(text, &report); err != nil {
		t.Fatal(err)
	}
	var got []string
	for _, r := range report.Rows {
		got = append(got, fmt.Sprint(r.Server, " ", r.Kind, " ", len(r.Rates), " ", r.Rate > 0, " ", r.Errors))
	}
	want := []string{
		"s0 put 2 true map[]", "s0 put and sync 2 true map[]", "s0 get 2 true map[]",
		"s1 put 2 true map[]", "s1 put and sync 2 true map[]", "s1 get 0 false map[other bytes:2]",
		"s2 put 0 false map[507:2]", "s2 put and sync 0 false map[]", "s2 get 0 false map[]",
	}
	if strings.Join(got, "\n") != strings.Join(want, "\n") {
		t.Errorf("the rows are\n%s\nwant\n%s", strings.Join(got, "\n"), strings.Join(want, "\n"))
	}
}

func TestMeasureLargeEndsWithItsContext(t *testing.T) {
	s := httptest.NewServer(&keeper{put: http.StatusCreated, change: func(file []byte) []byte { return file }})
	defer s.Close()
	o := options{rounds: 20, size: 1000, servers: []server{{name: "a", address: strings.TrimPrefix(s.URL, "http://")}}}
	ctx, cancel := context.WithTimeout(context.Background(), time.Nanosecond)
	defer cancel()
	if rows, err := measureLarge(ctx, o, io.Discard); err == nil {
		t.Errorf("%d rows after the context has ended", len(rows))
	}
}

func TestWriteLargeTable(t *testing.T) {
	rows := []*row{
		{kind: put, server: "a", rates: []float64{300, 100, 200}},
		{kind: synced, server: "a", rates: []float64{50}},
		{kind: get, server: "a", tally: tally{failures: map[string]int{"500": 1}}},
	}
	want := `| server | PUT MB/s | of the rounds | PUT and sync MB/s | of the rounds | GET MB/s | of the rounds | errors |
|---|---|---|---|---|---|---|---|
| a | 200 | 100 to 300 | 50 | 50 to 50 | 0 | none | 500: 1 |

`
	var out strings.Builder
	if err := writeLargeTable(&out, rows); err != nil || out.String() != want {
		t.Errorf("the table is\n%s%v, want\n%s", out.String(), err, want)
	}
}
