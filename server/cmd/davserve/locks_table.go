package main

import (
	"encoding/json"
	"fmt"
	"io"
	"net/url"
	"strconv"
	"strings"
	"text/tabwriter"
	"time"
	"unicode"
	"unicode/utf8"

	"davserve"
)

// printLocks prints locks, which the server has sent as JSON, as a table for people.
func printLocks(output io.Writer, text []byte, now time.Time) error {
	var locks []davserve.Lock
	if err := json.Unmarshal(text, &locks); err != nil {
		return fmt.Errorf("the locks that the server lists: %w", err)
	}
	if len(locks) == 0 {
		_, err := fmt.Fprintln(output, "no locks")
		return err
	}
	table := tabwriter.NewWriter(output, 0, 0, 2, ' ', 0)
	fmt.Fprintln(table, "PATH\tUSER\tKIND\tEXPIRES\tTOKEN")
	for _, lock := range locks {
		cells := []string{
			printablePath(lock.Path), owner(lock.Principal), kind(lock), expiry(lock.Expires, now), printable(lock.Token),
		}
		fmt.Fprintln(table, strings.Join(cells, "\t"))
	}
	return table.Flush()
}

// printablePath returns a path as people read it, percent-decoded.
func printablePath(path string) string {
	decoded, err := url.PathUnescape(path)
	if err != nil {
		return printable(path)
	}
	return printable(decoded)
}

// owner returns the user who made a lock, or - for a request without a user. A user of that name is quoted.
func owner(principal *string) string {
	switch {
	case principal == nil:
		return nobody
	case *principal == nobody:
		return strconv.Quote(*principal)
	}
	return printable(*principal)
}

// kind says what a lock excludes, and what it covers.
func kind(lock davserve.Lock) string {
	scope := "exclusive"
	if lock.Shared {
		scope = "shared"
	}
	if lock.Deep {
		return scope + ", and below"
	}
	return scope
}

// expiry says when a lock expires, and how long from now that is.
func expiry(at *time.Time, now time.Time) string {
	if at == nil {
		return "never"
	}
	left := at.Sub(now).Round(time.Second)
	if left < 0 {
		left = 0
	}
	return fmt.Sprintf("%s, in %v", at.UTC().Format("2006-01-02 15:04:05 UTC"), left)
}

// printable returns a text as a terminal may show it. If it is empty, begins with a quote, or has anything but visible
// characters and spaces, it is quoted as a string of Go.
func printable(text string) string {
	isPlain := text != "" && !strings.HasPrefix(text, `"`) && utf8.ValidString(text)
	for _, r := range text {
		isPlain = isPlain && unicode.IsPrint(r)
	}
	if isPlain {
		return text
	}
	return strconv.Quote(text)
}
