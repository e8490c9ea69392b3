package main

import (
	"os"
	"strings"
	"testing"
)

// wantedOptions are what the tests have davserve setup write.
var wantedOptions = serviceOptions{
	listen: ":8443", cert: "/e/cert.pem", key: "/e/key.pem", users: "/e/users", rights: "/e/rules.toml",
}

const wantedLine = "-listen :8443 -cert /e/cert.pem -key /e/key.pem -users /e/users -rights /e/rules.toml"

func TestTheOptionsFile(t *testing.T) {
	tests := []struct {
		name, text, value    string
		isInstalled, isSetUp bool
		want                 string // with the options
	}{
		{"no file", "", "", true, false, "DAVSERVE_OPTIONS=\"" + wantedLine + "\"\n"},
		{"only comments", "#DAVSERVE_OPTIONS=\"x\"", "", true, false, "#DAVSERVE_OPTIONS=\"x\"\nDAVSERVE_OPTIONS=\"" + wantedLine + "\"\n"},
		{"as it is installed", "# a\nDAVSERVE_OPTIONS=\"-listen 127.0.0.1:8080\"\n#b\n", installedOptions, true, false,
			"# a\nDAVSERVE_OPTIONS=\"" + wantedLine + "\"\n#b\n"},
		{"no quotes, and space", "  DAVSERVE_OPTIONS= -listen 127.0.0.1:8080 \n", installedOptions, true, false,
			"  DAVSERVE_OPTIONS=\"" + wantedLine + "\"\n"},
		{"single quotes, and no line end", "DAVSERVE_OPTIONS='-listen 127.0.0.1:8080'", installedOptions, true, false,
			"DAVSERVE_OPTIONS=\"" + wantedLine + "\""},
		{"the last line counts", "DAVSERVE_OPTIONS=\"-x\"\nDAVSERVE_OPTIONS=\"-listen 127.0.0.1:8080\"\n", installedOptions, true, false,
			"DAVSERVE_OPTIONS=\"-x\"\nDAVSERVE_OPTIONS=\"" + wantedLine + "\"\n"},
		{"as setup wrote it", "DAVSERVE_OPTIONS=\"" + wantedLine + "\"\n", wantedLine, false, true,
			"DAVSERVE_OPTIONS=\"" + wantedLine + "\"\n"},
		{"with a metric", "DAVSERVE_OPTIONS=\"" + wantedLine + " -metrics :1\"\n", wantedLine + " -metrics :1", false, false,
			"DAVSERVE_OPTIONS=\"" + wantedLine + "\"\n"},
		{"no options", "DAVSERVE_OPTIONS=\n", "", false, false, "DAVSERVE_OPTIONS=\"" + wantedLine + "\"\n"},
		{"another variable", "XDAVSERVE_OPTIONS=\"a\"\n", "", true, false,
			"XDAVSERVE_OPTIONS=\"a\"\nDAVSERVE_OPTIONS=\"" + wantedLine + "\"\n"},
	}
	for _, test := range tests {
		file := readOptions(test.text)
		if file.value() != test.value || file.isInstalled() != test.isInstalled {
			t.Errorf("%s: the options are %q, %v", test.name, file.value(), file.isInstalled())
		}
		if got, ok := file.setUp(); ok != test.isSetUp || ok && got != wantedOptions {
			t.Errorf("%s: %+v, %v", test.name, got, ok)
		}
		if got := file.with(wantedOptions); got != test.want {
			t.Errorf("%s: got\n%s, want\n%s", test.name, got, test.want)
		}
	}
}

func TestTheInstalledOptionsAreThoseOfTheFile(t *testing.T) {
	text, err := os.ReadFile("../../install/davserve.default")
	if err != nil {
		t.Fatal(err)
	}
	if file := readOptions(string(text)); !file.hasLine() || !file.isInstalled() {
		t.Errorf("the options are %q", file.value())
	}
}

func TestMissingOptions(t *testing.T) {
	tests := []struct{ line, want string }{
		{wantedLine + " -metrics 127.0.0.1:9090", ""},
		{"-listen :443 -users /e/users -rights /other -tls-self-signed", ""},
		{"-listen 127.0.0.1:8080 -users /e/users -rights /other", ""},
		{"-listen :8443 -users /e/users -tls-self-signed", "-rights /e/rules.toml"},
		{"-listen :443 -users /other -rights /r -cert c -key k", "-listen :8443 -users /e/users"},
		{"-listen 127.0.0.1:8080 -metrics :1", wantedLine},
		{"", wantedLine},
		{"-no-such-option", wantedLine},
	}
	for _, test := range tests {
		file := readOptions("DAVSERVE_OPTIONS=\"" + test.line + "\"\n")
		if got := strings.Join(file.missing(wantedOptions), " "); got != test.want {
			t.Errorf("%s: got\n%s, want\n%s", test.line, got, test.want)
		}
	}
}

func TestServiceOptionsAreChecked(t *testing.T) {
	with := func(change func(*serviceOptions)) serviceOptions {
		o := wantedOptions
		change(&o)
		return o
	}
	tests := []struct {
		name    string
		options serviceOptions
		isGood  bool
	}{
		{"the default", wantedOptions, true},
		{"an address of IPv6", with(func(o *serviceOptions) { o.listen = "[::1]:443" }), true},
		{"a folder with other letters", with(func(o *serviceOptions) { o.users = "/e/benützer" }), true},
		{"a port only", with(func(o *serviceOptions) { o.listen = "8443" }), false},
		{"a space", with(func(o *serviceOptions) { o.users = "/e f/users" }), false},
		{"a quote", with(func(o *serviceOptions) { o.rights = `/e"/rules` }), false},
		{"a backslash", with(func(o *serviceOptions) { o.cert = `/e\n` }), false},
		{"a dollar", with(func(o *serviceOptions) { o.key = "/e/$HOME" }), false},
		{"a line end", with(func(o *serviceOptions) { o.key = "/e\n" }), false},
	}
	for _, test := range tests {
		if err := test.options.check(); (err == nil) != test.isGood {
			t.Errorf("%s: %v", test.name, err)
		}
	}
}
