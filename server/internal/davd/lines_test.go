package davd

import (
	"bytes"
	"context"
	"log"
	"strings"
	"testing"
)

func TestLineWriter(t *testing.T) {
	long := strings.Repeat("a", longestLine)
	for _, test := range []struct {
		name   string
		writes []string
		want   string
	}{
		{"a line", []string{"one\n"}, "davd says: \"one\"\n"},
		{"a line in parts", []string{"o", "ne", "\n"}, "davd says: \"one\"\n"},
		{"two lines at once", []string{"one\ntwo\n"}, "davd says: \"one\"\ndavd says: \"two\"\n"},
		{"nothing", nil, ""},
		{"an empty line", []string{"\n"}, "davd says: \"\"\n"},
		{"a last line without an end", []string{"one\ntw", "o"}, "davd says: \"one\"\ndavd says: \"two\"\n"},
		{"a line that is too long", []string{long}, "davd says: \"" + long + "\"\n"},
		{"a line that is too long, in parts", []string{long[1:], "a", "b"}, "davd says: \"" + long + "\"\ndavd says: \"b\"\n"},
	} {
		t.Run(test.name, func(t *testing.T) {
			var said bytes.Buffer
			writer := &lineWriter{log: log.New(&said, "", 0)}
			for _, text := range test.writes {
				if n, err := writer.Write([]byte(text)); n != len(text) || err != nil {
					t.Fatalf("Write(%q) = %d, %v", text, n, err)
				}
			}
			writer.end()
			writer.end() // Nothing is logged twice.
			if got := said.String(); got != test.want {
				t.Errorf("the log is %q, want %q", got, test.want)
			}
		})
	}
}

func TestTheLastWordsOfDavdAreLogged(t *testing.T) {
	said := &logged{}
	engine, err := Start(context.Background(), Config{
		Program: "/bin/sh", Args: []string{"-c", "printf 'out of luck' >&2; cat >/dev/null"}, Log: said.logger(),
	})
	if err != nil {
		t.Fatal(err)
	}
	closeSoon(t, engine)
	if want := "davd says: \"out of luck\"\n"; said.String() != want {
		t.Errorf("the log is %q, want %q", said, want)
	}
}
