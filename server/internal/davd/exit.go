package davd

import (
	"errors"
	"fmt"
	"os/exec"
)

// exitReasons are why davd ended, by its exit status. Those from 4 on are of a davd over a folder.
var exitReasons = map[int]error{
	2: errors.New("davd rejects its arguments"),
	3: errors.New("its memory ran out at the start, or a stream failed"),
	4: ErrNoStore,
	5: ErrInUse,
	6: ErrNoAccess,
	7: ErrFull,
	8: errors.New("the last batch could not be kept"),

	9:  errors.New("everything is kept, but meta.db needs its log"),
	10: errors.New("everything is kept, but the number of the last batch may not be on the disk"),
}

// reasonOf returns why davd ended, or nil if its exit status does not say.
func reasonOf(end error) error {
	var exit *exec.ExitError
	if errors.As(end, &exit) {
		return exitReasons[exit.ExitCode()]
	}
	return nil
}

// lossOf returns the error of a call that davd has not done, by how davd ended.
func lossOf(end error) error {
	if errors.Is(reasonOf(end), ErrFull) {
		return ErrFull
	}
	return ErrLost
}

// howEnded describes how davd ended.
func howEnded(end error) string {
	reason := reasonOf(end)
	switch {
	case end == nil:
		return "status 0"
	case reason != nil:
		return fmt.Sprintf("%v: %v", end, reason)
	}
	return end.Error()
}

// whyNot returns why a davd that has ended could not be put into service. Its exit status says more than what was seen
// of its output.
func whyNot(seen, end error) error {
	if reason := reasonOf(end); reason != nil {
		return fmt.Errorf("%w (%v)", reason, end)
	}
	return fmt.Errorf("%w (%s)", seen, howEnded(end))
}
