// Package size has counts of bytes as flags, such as 512K and 1G.
package size

import (
	"errors"
	"fmt"
	"math"
	"strconv"
	"strings"
)

// A Size is a count of bytes. Its pointer is a flag.Value.
type Size int64

// The units, the largest first.
var units = []struct {
	name  string
	bytes Size
}{
	{"T", 1 << 40},
	{"G", 1 << 30},
	{"M", 1 << 20},
	{"K", 1 << 10},
}

// Parse returns the size that text denotes: decimal digits, and an optional K, M, G or T for a power of 1024. KiB, MiB,
// GiB and TiB mean the same. A size of 2^63 bytes or more is an error.
func Parse(text string) (Size, error) {
	digits, unit := split(text)
	n, err := strconv.ParseUint(digits, 10, 64)
	if err != nil {
		return 0, fmt.Errorf("size %q: %w", text, errors.Unwrap(err))
	}
	if n > uint64(math.MaxInt64/unit) {
		return 0, fmt.Errorf("size %q: %w", text, strconv.ErrRange)
	}
	return Size(n) * unit, nil
}

// split returns the digits before the unit, and the unit.
func split(text string) (string, Size) {
	for _, u := range units {
		for _, name := range []string{u.name, u.name + "iB"} {
			if digits := strings.TrimSuffix(text, name); digits != text {
				return digits, u.bytes
			}
		}
	}
	return text, 1
}

// Set sets s to the size that text denotes.
func (s *Size) Set(text string) error {
	parsed, err := Parse(text)
	if err != nil {
		return err
	}
	*s = parsed
	return nil
}

// String returns s in the largest unit that divides it. Parse returns s for it, unless s is negative.
func (s Size) String() string {
	for _, u := range units {
		if s != 0 && s%u.bytes == 0 {
			return strconv.FormatInt(int64(s/u.bytes), 10) + u.name
		}
	}
	return strconv.FormatInt(int64(s), 10)
}
