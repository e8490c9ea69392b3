package davserve

import (
	"context"
	"errors"
	"io"
	"io/fs"
	"os"
	"path/filepath"

	"davserve/internal/disk"
	"davserve/internal/frame"
	"davserve/internal/metrics"
)

// folderFiles are the files that davd makes in its folder.
var folderFiles = []string{"data", "data-wal", "last", "last-wal", "meta.db", "meta.db-wal"}

// reserveFile is the file in which davd keeps room back for a full disk, and reserveBytes is how much it is to keep.
const (
	reserveFile  = "data-wal"
	reserveBytes = 16 << 20
)

// WriteMetrics writes what is known of davd, its folder and the last check, in the text format of Prometheus. It asks davd
// how many locks there are. If davd does not answer before ctx is done, their metrics are left out.
func (h *Handler) WriteMetrics(ctx context.Context, w io.Writer) error {
	e := metrics.NewEncoder(w)
	h.engine.WriteMetrics(e)
	h.writeHoldings(ctx, e)
	if h.options.Folder != "" {
		writeFolder(h.options.Folder, e)
		h.checks.writeTo(e)
	}
	return e.Flush()
}

// writeHoldings writes what davd holds.
func (h *Handler) writeHoldings(ctx context.Context, e *metrics.Encoder) {
	reply, err := h.engine.Do(ctx, frame.Held{})
	holdings, ok := reply.(frame.Holdings)
	if err != nil || !ok {
		return
	}
	e.Gauge("davserve_locks", "Locks that have not expired.", float64(holdings.Locks))
	if h.options.Quota > 0 && holdings.Quota != nil {
		e.Gauge("davserve_quota_used_bytes", "Bytes of all files together.", float64(holdings.Quota.Used))
		e.Gauge("davserve_quota_bytes", "The option -quota.", float64(h.options.Quota))
	}
}

// writeFolder writes how large the files of a folder are, and how many bytes are left to them.
func writeFolder(folder string, e *metrics.Encoder) {
	e.Gauges("davserve_folder_bytes", "Length of each file in the folder.", func(sample func(float64, ...string)) {
		for _, name := range folderFiles {
			if info, err := os.Stat(filepath.Join(folder, name)); err == nil {
				sample(float64(info.Size()), "file", name)
			}
		}
	})
	if free, err := disk.Free(folder); err == nil {
		e.Gauge("davserve_folder_free_bytes", "Bytes that are free on the file system of the folder.", float64(free))
	}
	if kept, err := keptBack(folder); err == nil {
		e.Gauge("davserve_folder_reserve_bytes", "Bytes that are kept back for a full disk.", float64(kept))
		e.Gauge("davserve_folder_reserve_wanted_bytes", "Bytes that are to be kept back.", reserveBytes)
	}
}

// keptBack returns how many bytes a folder keeps back for a full disk: none before davd has made the file.
func keptBack(folder string) (int64, error) {
	info, err := os.Stat(filepath.Join(folder, reserveFile))
	if errors.Is(err, fs.ErrNotExist) {
		return 0, nil
	}
	if err != nil {
		return 0, err
	}
	return info.Size(), nil
}
