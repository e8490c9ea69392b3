package davd

import (
	"errors"
	"io/fs"
	"os"
	"path/filepath"
	"time"
)

// watched are the files by which a folder that was replaced is noticed.
var watched = []string{"meta.db", "data"}

// identify returns what the watched files of a folder are, by their names. One that is not there is left out.
func identify(folder string) map[string]fs.FileInfo {
	files := map[string]fs.FileInfo{}
	for _, name := range watched {
		if found, err := os.Stat(filepath.Join(folder, name)); err == nil {
			files[name] = found
		}
	}
	return files
}

// replaced returns the name of a watched file in whose place there is another file, or none, and "" if there is no such
// one. A file of which nothing can be said, because the disk fails, counts as there.
func (p *process) replaced(folder string) string {
	for _, name := range watched {
		opened, ok := p.files[name]
		if !ok {
			continue
		}
		found, err := os.Stat(filepath.Join(folder, name))
		if errors.Is(err, fs.ErrNotExist) || err == nil && !os.SameFile(opened, found) {
			return name
		}
	}
	return ""
}

// watch kills davd when its folder was replaced, moved or unmounted: it would go on to change files that nobody finds any
// more. The next davd is not served if the folder lacks what was answered. It returns when davd has ended.
func (e *Engine) watch(p *process) {
	if e.config.Folder == "" || e.config.pauses.watch == 0 {
		return
	}
	ticker := time.NewTicker(e.config.pauses.watch)
	defer ticker.Stop()
	for {
		select {
		case <-p.gone:
			return
		case <-ticker.C:
		}
		if name := p.replaced(e.config.Folder); name != "" && !e.isClosing() {
			e.config.Log.Printf("the folder %s was replaced, moved or unmounted while it was served: %s is gone, or another file. "+
				"Stop the server first", e.config.Folder, name)
			p.kill()
			return
		}
	}
}
