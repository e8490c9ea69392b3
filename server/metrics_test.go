package davserve

import (
	"context"
	"errors"
	"io"
	"os"
	"path/filepath"
	"strings"
	"testing"
	"time"

	"davserve/internal/metrics"
)

// metricsOf returns the metrics of a handler.
func metricsOf(t *testing.T, handler *Handler) string {
	t.Helper()
	ctx, cancel := context.WithTimeout(context.Background(), 5*time.Second)
	defer cancel()
	var b strings.Builder
	if err := handler.WriteMetrics(ctx, &b); err != nil {
		t.Fatal(err)
	}
	return b.String()
}

// hasLine reports whether a text has a line that begins so.
func hasLine(text, begin string) bool {
	return strings.HasPrefix(text, begin) || strings.Contains(text, "\n"+begin)
}

func TestMetricsOfAHandler(t *testing.T) {
	folder := Options{Folder: t.TempDir()}
	tests := []struct {
		name       string
		options    Options
		has, lacks []string
	}{
		{
			"in memory", Options{},
			[]string{"davserve_davd_up 1\n", "davserve_locks 0\n", `davserve_batch_duration_seconds_count{changes="true"} `},
			[]string{"davserve_quota", "davserve_folder", "davserve_davd_memory_limit_bytes"},
		}, {
			"with a quota", Options{Quota: 1000},
			[]string{"davserve_quota_used_bytes 5\n", "davserve_quota_bytes 1000\n"}, nil,
		}, {
			"in a folder", folder,
			[]string{
				`davserve_folder_bytes{file="data"} 5` + "\n", `davserve_folder_bytes{file="meta.db"} `,
				`davserve_folder_bytes{file="meta.db-wal"} `, "davserve_folder_free_bytes ",
				"davserve_folder_reserve_bytes 16777216\n", "davserve_folder_reserve_wanted_bytes 16777216\n",
			}, nil,
		},
	}
	for _, test := range tests {
		t.Run(test.name, func(t *testing.T) {
			handler := startHandler(t, test.options)
			put(t, handler, "/a", "hello")
			text := metricsOf(t, handler)
			for _, line := range test.has {
				if !hasLine(text, line) {
					t.Errorf("no line %q in\n%s", line, text)
				}
			}
			for _, line := range test.lacks {
				if hasLine(text, line) {
					t.Errorf("a line %q in\n%s", line, text)
				}
			}
		})
	}
}

func TestMetricsOfTheReserve(t *testing.T) {
	tests := []struct {
		name string
		size int64 // of data-wal, or -1 if it is not there
		want string
	}{
		{"without a file", -1, "davserve_folder_reserve_bytes 0\n"},
		{"empty", 0, "davserve_folder_reserve_bytes 0\n"},
		{"in part", 5000, "davserve_folder_reserve_bytes 5000\n"},
		{"filled", 16 << 20, "davserve_folder_reserve_bytes 16777216\n"},
	}
	for _, test := range tests {
		t.Run(test.name, func(t *testing.T) {
			folder := t.TempDir()
			if test.size >= 0 {
				name := filepath.Join(folder, "data-wal")
				if err := os.WriteFile(name, nil, 0o600); err != nil {
					t.Fatal(err)
				}
				if err := os.Truncate(name, test.size); err != nil {
					t.Fatal(err)
				}
			}
			text := folderMetrics(t, folder)
			for _, line := range []string{test.want, "davserve_folder_reserve_wanted_bytes 16777216\n"} {
				if !hasLine(text, line) {
					t.Errorf("no line %q in\n%s", line, text)
				}
			}
		})
	}
}

func TestMetricsOfAReserveThatCannotBeSeen(t *testing.T) {
	file := filepath.Join(t.TempDir(), "file")
	if err := os.WriteFile(file, nil, 0o600); err != nil {
		t.Fatal(err)
	}
	if text := folderMetrics(t, file); hasLine(text, "davserve_folder_reserve") {
		t.Errorf("the metrics of a file as the folder are\n%s", text)
	}
}

// folderMetrics returns the metrics of a folder alone.
func folderMetrics(t *testing.T, folder string) string {
	t.Helper()
	var b strings.Builder
	e := metrics.NewEncoder(&b)
	writeFolder(folder, e)
	if err := e.Flush(); err != nil {
		t.Fatal(err)
	}
	return b.String()
}

func TestMetricsWithoutAnAnswerOfDavd(t *testing.T) {
	handler := startHandler(t, Options{})
	if err := handler.Close(context.Background()); err != nil {
		t.Fatal(err)
	}
	if text := metricsOf(t, handler); hasLine(text, "davserve_locks") || !hasLine(text, "davserve_davd_up 0\n") {
		t.Errorf("the metrics are\n%s", text)
	}
	fails := writer(func([]byte) (int, error) { return 0, io.ErrShortWrite })
	if err := handler.WriteMetrics(context.Background(), fails); !errors.Is(err, io.ErrShortWrite) {
		t.Errorf("a writer that fails: %v", err)
	}
}
