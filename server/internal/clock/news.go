package clock

import (
	"fmt"
	"time"
)

const (
	// pause is the least time between two lines about jumps.
	pause = time.Minute
	// idle is for how long a store was not changed at least, so that it is logged.
	idle = 30 * 24 * time.Hour
)

// pace says in a line how a clock follows that of the machine.
const pace = "by three seconds a minute, so that locks end in time"

// A FarError says that a store has seen a time from which the clock of the machine is too far away.
type FarError struct {
	Clock  time.Time     // what the clock shows
	Seen   time.Time     // the last time that the store has seen
	Change time.Duration // how far they may be apart
}

// Error implements error.
func (e *FarError) Error() string {
	return fmt.Sprintf("the clock of the machine shows %s, and the last change was at %s, which is further away than "+
		"-max-clock-change (%v). Set the clock, or start with more, if it is right", show(e.Clock), show(e.Seen), e.Change)
}

// begun returns a line about the last time that a store has seen, if that is worth one.
func begun(last time.Time, ahead time.Duration) string {
	switch {
	case ahead >= notable:
		return fmt.Sprintf("the clock of the machine is %v behind the last change in the folder (%s): "+
			"the server goes on from there, and nears the clock %s", ahead.Round(time.Second), show(last), pace)
	case ahead <= -idle:
		return fmt.Sprintf("the last change in the folder was %d days ago by the clock of the machine (%s)",
			-ahead/(24*time.Hour), show(last))
	}
	return ""
}

// news is what is to be said of the jumps of a clock.
type news struct {
	jumped time.Duration // how far it has jumped since the last line
	last   time.Duration // when that was, by the steady clock
	isTold bool          // there was one
}

// add notes how far the clock has moved against the steady one.
func (n *news) add(step time.Duration) {
	if isNotable(step) {
		n.jumped += step
	}
}

// line returns a line about the jumps of the machine's clock, or "".
func (n *news) line(c *Clock) string {
	if !isNotable(n.jumped) || n.isTold && c.steady-n.last < pause {
		return ""
	}
	jumped := n.jumped
	*n = news{last: c.steady, isTold: true}
	line := "the clock of the machine has jumped " + say(jumped, "%v ahead", "%v back")
	if !isNotable(c.apart) {
		return line + ", and shows the time of the server again"
	}
	line += say(c.apart, ", and is %v ahead of the time of the server: ", ", and is %v behind the time of the server: ")
	if c.follows(c.apart) {
		return line + "that nears it " + pace
	}
	return line + "that does not follow, as it is more than -max-clock-change. Start the server again if the clock is right"
}

func isNotable(step time.Duration) bool {
	return step >= notable || step <= -notable
}

// say writes how long a duration is, in one of two ways by its sign.
func say(d time.Duration, ahead, behind string) string {
	d = d.Round(time.Second)
	if d < 0 {
		return fmt.Sprintf(behind, -d)
	}
	return fmt.Sprintf(ahead, d)
}

// show writes a time in the log.
func show(t time.Time) string {
	return t.UTC().Format("2006-01-02 15:04:05 UTC")
}
