package main

import (
	"errors"
	"flag"
	"io"
	"reflect"
	"strings"
	"testing"
	"time"
)

func TestParse(t *testing.T) {
	a := server{name: "a", address: "127.0.0.1:80"}
	b := server{name: "b", address: "127.0.0.1:8080", base: "/dav/%20x"}
	defaults := options{duration: 3 * time.Second, rounds: 3, writers: 2, connections: []int{1, 8, 64}, kinds: kinds}
	with := func(change func(*options)) options {
		o := defaults
		o.servers = []server{a}
		change(&o)
		return o
	}
	for _, c := range []struct {
		arguments string
		want      options
	}{
		{"a=http://127.0.0.1:80", with(func(o *options) {})},
		{"a=http://127.0.0.1:80/", with(func(o *options) {})},
		{"a=http://127.0.0.1:80 b=http://127.0.0.1:8080/dav/%20x/",
			with(func(o *options) { o.servers = []server{a, b} })},
		{"-seconds 60 -rounds 20 -writers 16 -json f a=http://127.0.0.1:80",
			with(func(o *options) { o.duration, o.rounds, o.writers, o.json = time.Minute, 20, 16, "f" })},
		{"-connections 64,1 a=http://127.0.0.1:80", with(func(o *options) { o.connections = []int{64, 1} })},
		{"-size 1073741824 a=http://127.0.0.1:80", with(func(o *options) { o.size = 1 << 30 })},
		{"-kinds mixed,get a=http://127.0.0.1:80", with(func(o *options) { o.kinds = []kind{mixed, get} })},
	} {
		got, err := parse(strings.Fields(c.arguments), io.Discard)
		if err != nil || !reflect.DeepEqual(got, c.want) {
			t.Errorf("parse(%s) = %+v, %v, want %+v", c.arguments, got, err, c.want)
		}
	}
}

func TestParseRejects(t *testing.T) {
	const fine = " a=http://127.0.0.1:80"
	for _, arguments := range []string{
		"", "a", "=http://127.0.0.1:80", "a=", "a|b=http://127.0.0.1:80",
		"a=https://127.0.0.1:80", "a=http://127.0.0.1", "a=http://127.0.0.1:0", "a=http://127.0.0.1:65536",
		"a=http://127.0.0.2:80", "a=http://localhost:80", "a=http://[::1]:80", "a=http://127.0.0.1.example.org:80",
		"a=http://u:p@127.0.0.1:80", "a=http://127.0.0.1:80/?q", "a=http://127.0.0.1:80/#f", "a=http://127.0.0.1:80/%",
		fine + fine,
		"-seconds 0" + fine, "-seconds 61" + fine, "-seconds x" + fine,
		"-rounds 0" + fine, "-rounds 21" + fine, "-writers 0" + fine, "-writers 17" + fine,
		"-size -1" + fine, "-size 1073741825" + fine, "-size 1G" + fine,
		"-connections 0" + fine, "-connections 65" + fine, "-connections 1,1" + fine, "-connections 1, " + fine,
		"-kinds get,get" + fine, "-kinds GET" + fine, "-kinds get," + fine, "-unknown" + fine,
		strings.Repeat(fine, 17),
	} {
		got, err := parse(strings.Fields(arguments), io.Discard)
		if err == nil || strings.Contains(err.Error(), "\n") {
			t.Errorf("parse(%s) = %+v, %v, want an error of one line", arguments, got, err)
		}
	}
}

func TestParseHelps(t *testing.T) {
	var said strings.Builder
	_, err := parse([]string{"-h"}, &said)
	if !errors.Is(err, flag.ErrHelp) || !strings.HasPrefix(said.String(), "usage: load [flags] NAME=URL...\n") {
		t.Errorf("parse(-h) returns %v and prints %q", err, said.String())
	}
}
