package clock

import (
	"time"

	"golang.org/x/sys/unix"
)

// began is when the program did, for the steady time of Go.
var began = time.Now()

// machine reads the clocks of this machine. The steady one goes on while the machine is suspended (CLOCK_BOOTTIME), so that
// locks end meanwhile as they do while the server is off. A kernel that does not have it shows the time of Go, which stops.
func machine() Reading {
	now := time.Now()
	var since unix.Timespec
	if unix.ClockGettime(unix.CLOCK_BOOTTIME, &since) != nil {
		return Reading{Wall: now, Steady: now.Sub(began)}
	}
	return Reading{Wall: now, Steady: time.Duration(since.Nano())}
}
