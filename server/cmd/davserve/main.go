// Davserve serves WebDAV over HTTP. Without -folder it keeps files and locks in memory: they are lost when it ends.
//
// Davserve backup makes a backup of the folder of a server that goes on serving. Davserve check has a server that runs read
// all its files. Davserve locks lists the locks of a server that runs, and removes some. Davserve import and davserve export
// copy files into the folder of a server that is stopped, and out of it. Davserve rights check says what access rules allow.
// Davserve setup sets up the service, with a user, access rules and a certificate.
//
// Exit statuses: 0 after SIGTERM, SIGINT, -help and -version, 1 if the server cannot start or fails, 2 for a wrong
// command line.
package main

import (
	"context"
	"errors"
	"flag"
	"fmt"
	"io"
	"log"
	"os"
	"os/signal"
	"runtime"
	"runtime/debug"
	"syscall"
	"time"

	"davserve/internal/logqueue"
	"davserve/internal/systemd"
)

// garbagePercent is how much the heap may grow until the garbage collector runs. What the server keeps is small and what
// a request allocates is soon garbage, so that the collector would run all the time.
const garbagePercent = 400

// The log may have so many bytes that nobody has read. At the end the server waits so long for its reader.
const (
	logBytes = 1 << 20
	logEnd   = time.Second
)

func main() {
	if os.Getenv("GOGC") == "" {
		debug.SetGCPercent(garbagePercent)
	}
	limitMemory()
	ctx, stop := signal.NotifyContext(context.Background(), syscall.SIGTERM, syscall.SIGINT)
	defer stop()
	os.Exit(run(ctx, os.Args[1:], os.Stdout, os.Stderr))
}

// commands are what the program does beside serving, by its first argument. Each returns the exit status.
var commands = map[string]func(ctx context.Context, arguments []string, output, errorOutput io.Writer) int{
	"backup": runBackup,
	"check":  runFileCheck,
	"export": runExport,
	"import": runImport,
	"locks":  runLocks,
	"rights": runRights,
	"setup":  runSetup,
}

// run is the program, which ends when ctx is done. It returns the exit status.
func run(ctx context.Context, arguments []string, output, errorOutput io.Writer) int {
	if len(arguments) > 0 {
		if command, ok := commands[arguments[0]]; ok {
			return command(ctx, arguments[1:], output, errorOutput)
		}
	}
	c, err := parse(arguments, errorOutput)
	switch {
	case errors.Is(err, flag.ErrHelp):
		return 0
	case err != nil:
		return 2
	case c.version:
		fmt.Fprintln(output, versionLine(ownRevision(), runtime.Version()))
		return 0
	}
	ignoreSignals()
	lines := logqueue.New(errorOutput, logBytes)
	defer lines.Close(logEnd)
	logger := log.New(lines, "", logFlags(errorOutput))
	if err := serve(ctx, c, logger); err != nil {
		logger.Printf("davserve: %v", err)
		return 1
	}
	return 0
}

// ignoreSignals has a write fail that would end the server: to a log whose reader has ended, and of davd to a file beyond
// the limit of the process, which davd inherits.
func ignoreSignals() {
	signal.Notify(make(chan os.Signal, 1), syscall.SIGPIPE)
	signal.Ignore(syscall.SIGXFSZ)
}

// logFlags returns what each line of a log begins with: the time, if nobody else adds it.
func logFlags(output io.Writer) int {
	if file, ok := output.(*os.File); ok && systemd.IsJournal(file) {
		return 0
	}
	return log.LstdFlags | log.LUTC
}
