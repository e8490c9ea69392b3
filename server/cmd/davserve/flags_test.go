package main

import (
	"bytes"
	"context"
	"flag"
	"io"
	"os"
	"reflect"
	"regexp"
	"sort"
	"strings"
	"testing"
	"time"
)

func TestParseRefuses(t *testing.T) {
	tests := []struct{ arguments, says string }{
		{"-cert c", "-cert and -key need each other"},
		{"-cert c -key k -tls-self-signed", "exclude each other"},
		{"-users u -user-header X -trusted-proxy 10.0.0.0/8", "exclude each other"},
		{"-user-header X", "needs -trusted-proxy"},
		{"-trusted-proxy 10.0.0.1", "invalid value"},
		{"-max-connections 0", "at least 1"},
		{"-client-share 0", "1 to 100"},
		{"-client-share 101", "1 to 100"},
		{"-xml-memory 0", "more than 0"},
		{"-host a:80", "without a port"},
		{"-host=", "name of a host"},
		{"-max-requests 0", "at least 1"},
		{"-max-handshakes -1", "0 to 1000000"},
		{"-max-handshakes 1000001", "0 to 1000000"},
		{"-idle-timeout 0s", "more than 0"},
		{"-stall-timeout -1s", "more than 0"},
		{"-hang-timeout 0s", "at least one second"},
		{"-hang-timeout -1s", "at least one second"},
		{"-max-segments 0", "at least 1"},
		{"-max-lock 10ms", "at least one second"},
		{"-max-clock-change 0", "more than 0"},
		{"-max-body 1X", "invalid value"},
		{"-listen 8080", "the address"},
		{"-listen :8080", "can be reached by others"},
		{"-listen 0.0.0.0:8080", "can be reached by others"},
		{"-listen [::]:8080", "can be reached by others"},
		{"-listen 192.0.2.1:8080", "can be reached by others"},
		{"-listen dav.example:8080", "can be reached by others"},
		{"-listen :8080 -users u", "passwords need"},
		{"-listen :8080 -users u -anonymous", "passwords need"},
		{"-folder=", "the name is empty"},
		{"-socket=", "the name is empty"},
		{"-rights=", "the name is empty"},
		{"extra", "unknown argument"},
		{"-unknown", "not defined"},
	}
	for _, test := range tests {
		var said bytes.Buffer
		if _, err := parse(strings.Fields(test.arguments), &said); err == nil {
			t.Errorf("%s is accepted", test.arguments)
		}
		if !strings.Contains(said.String(), test.says) {
			t.Errorf("%s: it says %q, without %q", test.arguments, said.String(), test.says)
		}
	}
}

func TestParseAccepts(t *testing.T) {
	for _, arguments := range []string{
		"",
		"-listen 127.0.0.1:0",
		"-listen [::1]:8080",
		"-listen [::1]:8080 -host dav.example -host [fe80::1]",
		"-trusted-proxy 10.0.0.0/8",
		"-listen localhost:8080 -users u",
		"-listen :8080 -anonymous",
		"-listen :443 -users u -cert c -key k",
		"-listen :443 -users u -tls-self-signed",
		"-tls-self-signed",
		"-listen :8080 -users u -plain-passwords",
		"-listen :8080 -user-header X-User -trusted-proxy 10.0.0.0/8 -trusted-proxy ::1/128",
		"-folder data",
		"-folder data -socket /run/davserve",
		"-socket /run/davserve",
		"-rights rules.toml",
		"-cors-origin https://a.example -cors-origin https://b.example",
	} {
		if _, err := parse(strings.Fields(arguments), io.Discard); err != nil {
			t.Errorf("%s: %v", arguments, err)
		}
	}
}

func TestParseReadsLimits(t *testing.T) {
	c, err := parse(strings.Fields("-max-body 2M -max-xml 3K -quota 5G -memory 0 -max-lock 90s -max-infinity 7"), io.Discard)
	if err != nil {
		t.Fatal(err)
	}
	o := c.options
	if o.MaxBody != 2<<20 || o.MaxXML != 3<<10 || o.Quota != 5<<30 || o.Memory != 0 {
		t.Errorf("sizes %d, %d, %d, %d", o.MaxBody, o.MaxXML, o.Quota, o.Memory)
	}
	if o.MaxLock != 90*time.Second || o.MaxInfinity != 7 {
		t.Errorf("%v and %d", o.MaxLock, o.MaxInfinity)
	}
}

// optionsIn returns the options that a document describes, by expressions for their lines and for an option in a line.
func optionsIn(t *testing.T, document string, line, option *regexp.Regexp) []string {
	t.Helper()
	text, err := os.ReadFile(document)
	if err != nil {
		t.Fatal(err)
	}
	var options []string
	for _, described := range line.FindAllString(string(text), -1) {
		for _, found := range option.FindAllStringSubmatch(described, -1) {
			options = append(options, found[1])
		}
	}
	sort.Strings(options)
	return options
}

func TestTheDocumentsHaveEachOption(t *testing.T) {
	var want []string
	(&config{}).flags(io.Discard).VisitAll(func(f *flag.Flag) { want = append(want, f.Name) })
	sort.Strings(want)
	tests := []struct{ document, line, option string }{
		{"../../install/davserve.1", `(?m)^\.It Fl .*`, `Fl ([a-z0-9-]*[a-z0-9])`},
		{"../../../docs/SERVER.md", "(?m)^\\| `-[^|]*", "`-([a-z0-9-]*[a-z0-9])"},
	}
	for _, test := range tests {
		got := optionsIn(t, test.document, regexp.MustCompile(test.line), regexp.MustCompile(test.option))
		if !reflect.DeepEqual(got, want) {
			t.Errorf("%s has\n%q, want\n%q", test.document, got, want)
		}
	}
}

func TestExitStatus(t *testing.T) {
	tests := []struct {
		arguments string
		want      int
	}{
		{"-version", 0},
		{"-help", 0},
		{"-unknown", 2},
		{"-davd /no/such/davd", 1},
		{"-davd /bin/true", 1},
		{"-users /no/such/file", 1},
		{"-rights /no/such/file", 1},
		{"-metrics 127.0.0.1:no-port", 1},
		{"backup -h", 0},
		{"backup", 2},
		{"backup -folder /no/such/folder /no/such/target", 1},
		{"locks -h", 0},
		{"locks list -h", 0},
		{"locks", 2},
		{"locks list", 2},
		{"locks list -folder /no/such/folder", 1},
		{"locks remove -folder /no/such/folder", 2},
		{"locks remove -folder /no/such/folder urn:1", 1},
		{"import -h", 0},
		{"import -folder /no/such/folder", 2},
		{"import -folder /no/such/folder /no/such/files", 1},
		{"export -h", 0},
		{"export -folder /no/such/folder", 2},
		{"export -folder /no/such/folder /no/such/files", 1},
		{"setup -h", 0},
		{"setup", 2},
		{"setup -user a:b", 2},
		{"setup -user ann -config /no/such/folder/etc", 1},
		{"rights -h", 0},
		{"rights check -h", 0},
		{"rights", 2},
		{"rights check", 2},
		{"rights check /no/such/file ada", 2},
		{"rights check /no/such/file ada /a", 1},
	}
	for _, test := range tests {
		if got := run(context.Background(), strings.Fields(test.arguments), io.Discard, io.Discard); got != test.want {
			t.Errorf("%s: status %d, want %d", test.arguments, got, test.want)
		}
	}
}
