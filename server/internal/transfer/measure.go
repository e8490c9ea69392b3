package transfer

import (
	"context"
	"io/fs"
	"path/filepath"
)

// Measure returns how many bytes the files in a folder have. What cannot be read counts as nothing.
func Measure(ctx context.Context, folder string) (total int64) {
	filepath.WalkDir(folder, func(_ string, entry fs.DirEntry, err error) error {
		if ctx.Err() != nil {
			return ctx.Err()
		}
		if err != nil || !entry.Type().IsRegular() {
			return nil
		}
		if info, err := entry.Info(); err == nil {
			total += info.Size()
		}
		return nil
	})
	return total
}
