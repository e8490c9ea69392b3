//go:build !linux

package davd

import (
	"errors"
	"math"
)

// canLimit reports whether the address space of a running process can be read and limited. Here the limit with which
// davd is started applies as long as it runs.
func canLimit() bool { return false }

var errNoLimit = errors.New("a running process cannot be limited")

func greatestLimit() int64 { return math.MaxInt64 }

func setLimit(int, int64, int64) error { return errNoLimit }

func addressSpace(int) (int64, error) { return 0, errNoLimit }
