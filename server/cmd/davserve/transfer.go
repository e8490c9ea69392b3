package main

import (
	"context"
	"errors"
	"flag"
	"fmt"
	"io"
	"io/fs"
	"log"
	"math"
	"os"
	"path/filepath"
	"time"

	"davserve/internal/clock"
	"davserve/internal/davd"
	"davserve/internal/size"
	"davserve/internal/transfer"
)

// closeTime is how long davd may take to end after an import or an export.
const closeTime = time.Minute

// databaseName is the file without which a folder is none of a server.
const databaseName = "meta.db"

// A transferCommand is davserve import or davserve export.
type transferCommand struct {
	name, usage, statuses string
	did, skipped          string // for messages
	needsStore            bool   // the folder must be that of a server already
	run                   func(context.Context, transfer.Options) error
}

// A transferConfig is what the command line of davserve import or davserve export says.
type transferConfig struct {
	davd   string
	folder string
	dir    string
	path   string // in the store
	quiet  bool
	change time.Duration // how far the clock of the machine may be from the time of the folder
}

// start runs the command. It returns the exit status.
func (t *transferCommand) start(ctx context.Context, arguments []string, output, errorOutput io.Writer) int {
	c, err := t.parse(arguments, errorOutput)
	switch {
	case errors.Is(err, flag.ErrHelp):
		return 0
	case err != nil:
		return 2
	}
	screen := newScreen(errorOutput, c.quiet)
	began := time.Now()
	var progress transfer.Progress
	err = t.copy(ctx, c, &progress, screen)
	if !c.quiet && (err == nil || progress.Seen.Load() > 0) {
		fmt.Fprintln(output, t.summary(&progress, time.Since(began)))
	}
	failed := progress.Failed.Load()
	if failed > 0 {
		screen.say("davserve %s: %d of %d were not %s", t.name, failed, progress.Seen.Load(), t.did)
	}
	if err != nil {
		screen.say("davserve %s: %v", t.name, err)
	}
	if err != nil || failed > 0 {
		return 1
	}
	return 0
}

// parse reads the command line. What is wrong with it, or the help that it asks for, is written to the output.
func (t *transferCommand) parse(arguments []string, output io.Writer) (transferConfig, error) {
	c := transferConfig{davd: defaultDavd(), change: math.MaxInt64}
	flags := flag.NewFlagSet("davserve "+t.name, flag.ContinueOnError)
	flags.SetOutput(output)
	flags.Usage = func() {
		fmt.Fprint(output, t.usage)
		flags.PrintDefaults()
		fmt.Fprint(output, t.statuses)
	}
	flags.Func("folder", "the `folder` of the server, as its option -folder", notEmpty(&c.folder))
	flags.Func("davd", "the `program` davd (default: beside this program, or in PATH)", notEmpty(&c.davd))
	flags.BoolVar(&c.quiet, "quiet", false, "print only what fails")
	if !t.needsStore { // An export changes nothing, so that any time will do.
		flags.DurationVar(&c.change, "max-clock-change", clock.MaxChange, clockUsage)
	}
	words, err := parseAnywhere(flags, arguments)
	if err != nil {
		return c, err
	}
	if err := c.set(words); err != nil {
		fmt.Fprintf(output, "davserve %s: %v\n", t.name, err)
		return c, err
	}
	return c, nil
}

// set sets what the arguments beside the options say.
func (c *transferConfig) set(words []string) (err error) {
	switch {
	case c.folder == "":
		return errors.New("it needs -folder")
	case len(words) == 0 || len(words) > 2:
		return errors.New("it needs one DIR, and at most a PATH after it")
	case words[0] == "":
		return errors.New("the name of the DIR is empty")
	case c.change <= 0:
		return errors.New("-max-clock-change is more than 0")
	}
	c.dir, c.path = words[0], "/"
	if len(words) == 2 {
		if c.path, err = transfer.Parse(words[1]); err != nil {
			return fmt.Errorf("PATH %q: %w", words[1], err)
		}
	}
	c.folder, err = filepath.Abs(c.folder) // So that it does not look like an option of davd.
	return err
}

// copy copies, by a davd of its own.
func (t *transferCommand) copy(ctx context.Context, c transferConfig, progress *transfer.Progress, screen *screen) error {
	if err := t.check(c); err != nil {
		return err
	}
	engine, err := davd.Start(ctx, davd.Config{
		Program: c.davd, Folder: c.folder, Log: log.New(screen, "", 0), MaxClockChange: c.change,
	})
	if errors.Is(err, davd.ErrInUse) {
		err = fmt.Errorf("%w: stop its server first", err)
	}
	if err == nil {
		stop := screen.show(ctx, func(total int64, rate float64) string { return progressLine(progress, total, rate) },
			t.measure(c), &progress.Bytes)
		err = t.run(ctx, transfer.Options{
			Store: transfer.Of(engine), Dir: c.dir, Path: c.path, Without: c.folder, Progress: progress,
			Report: func(path string, reason error) { screen.say("davserve %s: %q: %v", t.name, path, reason) },
		})
		stop()
		err = closeEngine(engine, advise(err))
	}
	if ctx.Err() != nil {
		return errors.New("it was interrupted: run it again to go on")
	}
	return err
}

// advise adds to an error of a davd that has ended what helps.
func advise(err error) error {
	for _, ended := range []error{davd.ErrLost, davd.ErrKept, davd.ErrUnknown, davd.ErrDown} {
		if errors.Is(err, ended) {
			return fmt.Errorf("%w: run it again to go on", err)
		}
	}
	return err
}

// check refuses folders that are not there, before davd makes one.
func (t *transferCommand) check(c transferConfig) error {
	if t.needsStore {
		if _, err := os.Stat(filepath.Join(c.folder, databaseName)); errors.Is(err, fs.ErrNotExist) {
			return fmt.Errorf("%s is not the folder of a server: it has no %s", c.folder, databaseName)
		}
		return nil
	}
	info, err := os.Stat(c.dir)
	if err == nil && !info.IsDir() {
		err = fmt.Errorf("%s is not a directory", c.dir)
	}
	return err
}

// measure returns what finds out how many bytes will be copied, or nil if nothing does.
func (t *transferCommand) measure(c transferConfig) func(context.Context) int64 {
	if t.needsStore {
		return nil
	}
	return func(ctx context.Context) int64 { return transfer.Measure(ctx, c.dir) }
}

// closeEngine ends davd. An error of the copy comes first.
func closeEngine(engine *davd.Engine, copied error) error {
	ctx, cancel := context.WithTimeout(context.Background(), closeTime)
	defer cancel()
	if err := engine.Close(ctx); err != nil && copied == nil {
		return err
	}
	return copied
}

// summary says what was done.
func (t *transferCommand) summary(p *transfer.Progress, took time.Duration) string {
	precision := time.Second
	if took < 10*time.Second {
		precision = 10 * time.Millisecond
	}
	return fmt.Sprintf("%s %s (%s) and %s in %v; %d %s", t.did,
		quantity(p.Files.Load(), "file", "files"), size.Readable(p.Bytes.Load()),
		quantity(p.Directories.Load(), "directory", "directories"), took.Round(precision), p.Skipped.Load(), t.skipped)
}

func quantity(n int64, one, many string) string {
	if n == 1 {
		return "1 " + one
	}
	return fmt.Sprintf("%d %s", n, many)
}

// progressLine says what is done so far. A total of 0 is not known.
func progressLine(p *transfer.Progress, total int64, rate float64) string {
	files := p.Files.Load() + p.Skipped.Load()
	line := fmt.Sprintf("%s, %s, %s/s", quantity(files, "file", "files"),
		size.Readable(p.Bytes.Load()+p.Passed.Load()), size.Readable(int64(rate)))
	if total > 0 {
		percent := float64(p.Bytes.Load()+p.Passed.Load()) / float64(total) * 100
		if percent > 100 {
			percent = 100 // DIR has grown meanwhile.
		}
		line += fmt.Sprintf(", %.0f%%", percent)
	}
	return line
}
