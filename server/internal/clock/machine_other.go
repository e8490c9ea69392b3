//go:build !linux

package clock

import "time"

// began is when the program did.
var began = time.Now()

// machine reads the clocks of this machine. Of Go's steady time it is not known whether it goes on while the machine is
// suspended. If it stops, the time of day has jumped ahead afterwards.
func machine() Reading {
	now := time.Now()
	return Reading{Wall: now, Steady: now.Sub(began)}
}
