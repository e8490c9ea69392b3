package davserve

import (
	"archive/tar"
	"context"
	"errors"
	"io"
	"time"

	"davserve/internal/backup"
	"davserve/internal/davd"
)

// ErrNoFolder says that a handler without a folder has nothing that a backup could have.
var ErrNoFolder = errors.New("without a folder there is no backup")

// Backup writes a backup of the folder to w: a tar archive with the files of a folder, which has everything that was
// answered before Backup was called. One backup at a time can be made.
//
// Requests wait while the database of the folder is copied to a temporary file. Then they are served while the rest is
// written. Until the backup ends, davd uses no space in the folder again.
//
// When Backup returns nil, the backup is whole. Otherwise what was written is of no use: davd has ended, ctx is done, or a
// file could not be read or written. If nothing was written, no backup was begun.
func (h *Handler) Backup(ctx context.Context, w io.Writer) error {
	if h.options.Folder == "" {
		return ErrNoFolder
	}
	var snapshot *backup.Snapshot
	var waited time.Duration
	running, err := h.engine.StartBackup(ctx, func() (err error) {
		began := time.Now()
		snapshot, err = backup.Take(h.options.Folder)
		waited = time.Since(began)
		return err
	})
	if snapshot != nil {
		defer snapshot.Close()
	}
	if err != nil {
		return err
	}
	h.options.Log.Printf("a backup begins: requests have waited %v for the copy of the database", waited.Round(time.Millisecond))
	archive := tar.NewWriter(w)
	if err := writeAndEnd(ctx, archive, snapshot, running); err != nil {
		return err
	}
	return archive.Close()
}

// writeAndEnd writes a snapshot to an archive, and then ends the backup, also if the writer of the archive panics.
func writeAndEnd(ctx context.Context, archive *tar.Writer, snapshot *backup.Snapshot, running *davd.Backup) (err error) {
	defer func() {
		if ended := running.End(); err == nil {
			err = ended // Only now it is known that davd has overwritten nothing.
		}
	}()
	return snapshot.Write(archive, func() error {
		if err := running.Check(); err != nil {
			return err
		}
		return ctx.Err()
	})
}
