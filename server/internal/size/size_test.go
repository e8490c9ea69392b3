package size

import (
	"errors"
	"flag"
	"io"
	"math"
	"strconv"
	"testing"
)

var _ flag.Value = new(Size)

func TestParse(t *testing.T) {
	tests := []struct {
		text string
		want Size
	}{
		{"0", 0},
		{"0T", 0},
		{"1", 1},
		{"1023", 1023},
		{"007", 7},
		{"1K", 1024},
		{"1KiB", 1024},
		{"1M", 1048576},
		{"2MiB", 2097152},
		{"1G", 1073741824},
		{"3GiB", 3221225472},
		{"1T", 1099511627776},
		{"1TiB", 1099511627776},
		{"8388607T", 9223370937343148032},
		{"9223372036854775807", math.MaxInt64},
		{"9007199254740991K", 9223372036854774784},
	}
	for _, test := range tests {
		got, err := Parse(test.text)
		if err != nil || got != test.want {
			t.Errorf("Parse(%q) = %d, %v, want %d", test.text, got, err, test.want)
		}
	}
}

func TestParseErrors(t *testing.T) {
	tests := []struct {
		text string
		want error
	}{
		{"", strconv.ErrSyntax},
		{"K", strconv.ErrSyntax},
		{"iB", strconv.ErrSyntax},
		{"-1", strconv.ErrSyntax},
		{"+1", strconv.ErrSyntax},
		{" 1", strconv.ErrSyntax},
		{"1 ", strconv.ErrSyntax},
		{"1 K", strconv.ErrSyntax},
		{"1k", strconv.ErrSyntax},
		{"1KB", strconv.ErrSyntax},
		{"1B", strconv.ErrSyntax},
		{"1Ki", strconv.ErrSyntax},
		{"1iB", strconv.ErrSyntax},
		{"1KK", strconv.ErrSyntax},
		{"1KM", strconv.ErrSyntax},
		{"1P", strconv.ErrSyntax},
		{"1_000", strconv.ErrSyntax},
		{"0x10", strconv.ErrSyntax},
		{"1.5G", strconv.ErrSyntax},
		{"1e3", strconv.ErrSyntax},
		{"\u0661", strconv.ErrSyntax},
		{"9223372036854775808", strconv.ErrRange},
		{"18446744073709551615", strconv.ErrRange},
		{"18446744073709551616", strconv.ErrRange},
		{"99999999999999999999999", strconv.ErrRange},
		{"9007199254740992K", strconv.ErrRange},
		{"8388608T", strconv.ErrRange},
		{"18446744073709551615T", strconv.ErrRange},
		{"16777216T", strconv.ErrRange}, // 2^64
		{"16777217T", strconv.ErrRange}, // 2^64 + 2^40
	}
	for _, test := range tests {
		got, err := Parse(test.text)
		if !errors.Is(err, test.want) || got != 0 {
			t.Errorf("Parse(%q) = %d, %v, want %v", test.text, got, err, test.want)
		}
	}
}

func TestString(t *testing.T) {
	tests := []struct {
		size Size
		want string
	}{
		{0, "0"},
		{1, "1"},
		{1023, "1023"},
		{1024, "1K"},
		{1025, "1025"},
		{1536, "1536"},
		{1 << 20, "1M"},
		{3 << 19, "1536K"},
		{1 << 30, "1G"},
		{1 << 40, "1T"},
		{1 << 50, "1024T"},
		{math.MaxInt64, "9223372036854775807"},
	}
	for _, test := range tests {
		if got := test.size.String(); got != test.want {
			t.Errorf("Size(%d).String() = %q, want %q", int64(test.size), got, test.want)
		}
		if back, err := Parse(test.want); err != nil || back != test.size {
			t.Errorf("Parse(%q) = %d, %v, want %d", test.want, back, err, int64(test.size))
		}
	}
}

func TestFlag(t *testing.T) {
	flags := flag.NewFlagSet("test", flag.ContinueOnError)
	flags.SetOutput(io.Discard)
	s := Size(1 << 30)
	flags.Var(&s, "max-body", "the greatest `size` of a body")
	if err := flags.Parse([]string{"-max-body", "1x"}); err == nil || s != 1<<30 {
		t.Errorf("1x: %v, %v", s, err)
	}
	if err := flags.Parse([]string{"-max-body", "64M"}); err != nil || s != 64<<20 {
		t.Errorf("64M: %v, %v", s, err)
	}
	flags.PrintDefaults() // calls String of the zero value
}

func FuzzParse(f *testing.F) {
	for _, text := range []string{"", "0", "1K", "1KiB", "8388607T", "8388608T", "-1", "9223372036854775807"} {
		f.Add(text)
	}
	f.Fuzz(func(t *testing.T, text string) {
		s, err := Parse(text)
		if err != nil {
			return
		}
		if s < 0 {
			t.Fatalf("Parse(%q) = %d", text, int64(s))
		}
		if back, err := Parse(s.String()); err != nil || back != s {
			t.Fatalf("Parse(%q) = %d, %v, want %d", s, back, err, int64(s))
		}
	})
}
