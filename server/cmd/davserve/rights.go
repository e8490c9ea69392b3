package main

import (
	"context"
	"errors"
	"fmt"
	"log"
	"net/http"
	"os"
	"os/signal"
	"strings"
	"sync"
	"syscall"
	"unicode/utf8"

	"davserve"
)

// readRights returns the text of the access rules in a file. An empty file has no rules, so that it allows nothing. An
// empty text would stand for a server without access rules.
func readRights(file string) (string, error) {
	text, err := os.ReadFile(file)
	switch {
	case err != nil:
		return "", err
	case !utf8.Valid(text):
		return "", fmt.Errorf("%s: it is not UTF-8", file)
	case len(text) == 0:
		return "\n", nil
	}
	return string(text), nil
}

// inFile names the file of access rules in the error that says, in one line, what is wrong with them.
func inFile(file string, err error) error {
	var refused *davserve.RightsError
	if errors.As(err, &refused) {
		lines := strings.Split(strings.TrimSpace(refused.Reason), "\n")
		return fmt.Errorf("%s: %s", file, strings.Join(lines, ": "))
	}
	return err
}

// A setter replaces access rules, as a davserve.Handler does.
type setter interface {
	SetRights(ctx context.Context, text string) error
}

// A reloader reads the file of the access rules again at each SIGHUP. A nil one does nothing.
type reloader struct {
	file    string
	log     *log.Logger
	hangups chan os.Signal
	ended   sync.WaitGroup
}

// newReloader returns a reloader that remembers a SIGHUP from now on, or nil if there is no file. The caller must end
// it.
func newReloader(file string, logger *log.Logger) *reloader {
	if file == "" {
		return nil
	}
	r := &reloader{file: file, log: logger, hangups: make(chan os.Signal, 1)}
	signal.Notify(r.hangups, syscall.SIGHUP)
	return r
}

// start has the rules of a handler replaced at each SIGHUP, until ctx is done.
func (r *reloader) start(ctx context.Context, dav setter) {
	if r == nil {
		return
	}
	r.ended.Add(1)
	go func() {
		defer r.ended.Done()
		for {
			select {
			case <-r.hangups:
				r.reload(ctx, dav)
			case <-ctx.Done():
				return
			}
		}
	}()
}

// reload replaces the rules, and logs whether it could.
func (r *reloader) reload(ctx context.Context, dav setter) {
	text, err := readRights(r.file)
	if err == nil {
		err = inFile(r.file, dav.SetRights(ctx, text))
	}
	var failed *davserve.StatusError
	switch {
	case err == nil:
		r.log.Printf("the access rules of %s hold from now on", r.file)
	case errors.As(err, &failed) && failed.Status == http.StatusInsufficientStorage:
		r.log.Printf("the access rules of %s hold from now on, or the old ones: davd has no memory. Send SIGHUP again.",
			r.file)
	case ctx.Err() == nil:
		r.log.Printf("the access rules stay as they were: %v", err)
	}
}

// end waits until the reloader has ended. No SIGHUP counts any more.
func (r *reloader) end() {
	if r == nil {
		return
	}
	signal.Stop(r.hangups)
	r.ended.Wait()
}
