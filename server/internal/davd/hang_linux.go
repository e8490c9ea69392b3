package davd

import (
	"bytes"
	"fmt"
	"os"
	"path/filepath"
	"strconv"
	"strings"
)

// threadsOf returns what the system says of the threads of a running process.
func threadsOf(pid int) (threads, error) {
	var all threads
	paths, err := filepath.Glob(fmt.Sprintf("/proc/%d/task/*/status", pid))
	if err != nil {
		return all, err
	}
	for _, path := range paths {
		text, err := os.ReadFile(path)
		if err != nil {
			return threads{}, err
		}
		if err := all.add(text); err != nil {
			return threads{}, fmt.Errorf("%s: %w", path, err)
		}
	}
	return all, nil
}

// add adds the thread of which this is the file status in /proc.
func (t *threads) add(status []byte) error {
	fields := map[string]string{}
	for _, line := range bytes.Split(status, []byte("\n")) {
		name, value, _ := strings.Cut(string(line), ":")
		fields[name] = strings.TrimSpace(value)
	}
	state, _, _ := strings.Cut(fields["State"], " ")
	if len(state) != 1 {
		return fmt.Errorf("the state is %q", fields["State"])
	}
	if !strings.Contains(t.states, state) {
		t.states += state
	}
	for _, name := range []string{"voluntary_ctxt_switches", "nonvoluntary_ctxt_switches"} {
		n, err := strconv.ParseUint(fields[name], 10, 64)
		if err != nil {
			return fmt.Errorf("%s: %w", name, err)
		}
		t.switches += n
	}
	return nil
}
