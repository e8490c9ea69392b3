package main

import (
	"fmt"
	"io"
	"regexp"
	"strings"
)

// installedOptions are the options of the service as server/install/davserve.default has them.
const installedOptions = "-listen 127.0.0.1:8080"

var (
	// An assignment is a line of a file for systemd with the options of the service. The last one counts.
	assignment = regexp.MustCompile(`(?m)^[ \t]*DAVSERVE_OPTIONS=(.*)$`)
	// Set-up options are those that davserve setup writes.
	setUp = regexp.MustCompile(`^-listen (\S+) -cert (\S+) -key (\S+) -users (\S+) -rights (\S+)$`)
	// A plain word is one that neither systemd nor a person can read in two ways.
	plainWord = regexp.MustCompile(`^[\pL\pN/._:@,+=~%\[\]-]+$`)
)

// A serviceOptions is what davserve setup writes as the options of the service.
type serviceOptions struct {
	listen, cert, key, users, rights string
}

// String returns the options as a command line has them.
func (o serviceOptions) String() string {
	return strings.Join(o.list(), " ")
}

// list returns each option with its value.
func (o serviceOptions) list() []string {
	return []string{"-listen " + o.listen, "-cert " + o.cert, "-key " + o.key, "-users " + o.users, "-rights " + o.rights}
}

// check refuses options with which a server cannot start, and words that systemd would split.
func (o serviceOptions) check() error {
	for _, word := range []string{o.listen, o.cert, o.key, o.users, o.rights} {
		if !plainWord.MatchString(word) {
			return fmt.Errorf("%q cannot be among the options of a service: it is empty, or has a space or another such character", word)
		}
	}
	_, err := parse(strings.Fields(o.String()), io.Discard)
	return err
}

// An optionsFile is a file for systemd with the options of the service.
type optionsFile struct {
	text       string
	start, end int // where the value of the last assignment is; both 0: there is none
}

// readOptions returns the file with this text.
func readOptions(text string) optionsFile {
	f := optionsFile{text: text}
	if found := assignment.FindAllStringSubmatchIndex(text, -1); len(found) > 0 {
		last := found[len(found)-1]
		f.start, f.end = last[2], last[3]
	}
	return f
}

// hasLine reports whether the file sets the options.
func (f optionsFile) hasLine() bool { return f.end > 0 }

// value returns the options, without quotes around them.
func (f optionsFile) value() string {
	value := strings.TrimSpace(f.text[f.start:f.end])
	for _, quote := range []string{`"`, `'`} {
		if len(value) >= 2 && strings.HasPrefix(value, quote) && strings.HasSuffix(value, quote) {
			return value[1 : len(value)-1]
		}
	}
	return value
}

// isInstalled reports whether the options are as they were installed, or the file sets none.
func (f optionsFile) isInstalled() bool { return !f.hasLine() || f.value() == installedOptions }

// setUp returns the options if they have the form in which davserve setup writes them.
func (f optionsFile) setUp() (o serviceOptions, ok bool) {
	found := setUp.FindStringSubmatch(f.value())
	if found == nil {
		return o, false
	}
	return serviceOptions{listen: found[1], cert: found[2], key: found[3], users: found[4], rights: found[5]}, true
}

// with returns the text of the file with these options.
func (f optionsFile) with(o serviceOptions) string {
	if f.hasLine() {
		return f.text[:f.start] + `"` + o.String() + `"` + f.text[f.end:]
	}
	text := f.text
	if text != "" && !strings.HasSuffix(text, "\n") {
		text += "\n"
	}
	return text + `DAVSERVE_OPTIONS="` + o.String() + "\"\n"
}

// missing returns the options that a line which somebody wrote lacks, so that the service has the users and access rules.
func (f optionsFile) missing(wanted serviceOptions) []string {
	c, err := parse(strings.Fields(f.value()), io.Discard)
	if err != nil {
		return wanted.list()
	}
	if c.users == wanted.users && c.rights != "" {
		return nil
	}
	var missing []string
	for i, has := range []bool{c.listen == wanted.listen, c.hasTLS(), c.hasTLS(), c.users == wanted.users, c.rights != ""} {
		if !has {
			missing = append(missing, wanted.list()[i])
		}
	}
	return missing
}
