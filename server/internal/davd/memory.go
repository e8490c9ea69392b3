package davd

import (
	"fmt"
	"math"
	"os/exec"
	"strconv"
)

// loadFactor is how many times its limit davd may have while it loads its folder. It makes the store beside the rows of
// the folder, and was seen to need 2.9 times the memory that it had when it kept them.
const loadFactor = 4

// reservePart is which part of its memory davd has for nothing but what frees memory: the memory divided by it.
const reservePart = 16

// An allowance is how many bytes the address space of a davd in service may have. The zero value is no limit, or one that
// cannot be changed any more.
type allowance struct {
	common  int64 // for every batch
	reserve int64 // for one that only frees memory, beside that
}

// allowance returns what davd may have while it serves.
func (c Config) allowance() allowance {
	if c.Memory <= 0 || !canLimit() {
		return allowance{}
	}
	reserve := c.Memory / reservePart
	return allowance{common: c.Memory - reserve, reserve: reserve}
}

// most returns what a batch may have that only frees memory.
func (a allowance) most() int64 {
	return a.common + a.reserve
}

// isShort reports whether a davd that has so many bytes may be unable to free some without the reserve.
func (a allowance) isShort(has int64) bool {
	return has > a.common-a.reserve
}

// isFull reports whether a davd that has so many bytes may be given nothing more to hold, because more than half of the
// reserve is in use. What was freed there would be filled, and the reserve used up bit by bit.
func (a allowance) isFull(has int64) bool {
	return has > a.common+a.reserve/2
}

// limitAtStart returns the limit of the address space with which davd is started, in bytes. 0: none.
func (c Config) limitAtStart() int64 {
	if c.Memory <= 0 || c.Folder == "" || !canLimit() {
		return c.Memory
	}
	limit := int64(math.MaxInt64)
	if c.Memory <= limit/loadFactor {
		limit = loadFactor * c.Memory
	}
	if most := greatestLimit(); limit > most {
		limit = most
	}
	if limit < c.Memory {
		return c.Memory // The start fails and says why.
	}
	return limit
}

// command returns the command that starts a program with the arguments of davd and the limit of its address space. Only
// its user may read what it makes in a folder.
func (c Config) command(program string) *exec.Cmd {
	arguments := append([]string{program}, c.arguments()...)
	limit := c.limitAtStart()
	if limit <= 0 {
		return inShell(`umask 077 && exec "$@"`, arguments)
	}
	soft := limit
	if common := c.allowance().common; c.Folder == "" && common > 0 {
		soft = common
	}
	const script = `umask 077 && ulimit -S -v "$1" && ulimit -H -v "$2" && shift 2 && exec "$@"`
	return inShell(script, append([]string{kibibytes(soft), kibibytes(limit)}, arguments...))
}

// inShell returns the command that executes a script of the shell with these arguments.
func inShell(script string, arguments []string) *exec.Cmd {
	return exec.Command("/bin/sh", append([]string{"-c", script, "sh"}, arguments...)...)
}

// kibibytes returns a number of bytes in KiB, rounded up.
func kibibytes(n int64) string {
	kib := n / 1024
	if n%1024 > 0 {
		kib++
	}
	return strconv.FormatInt(kib, 10)
}

// limitMemory lowers the limit with which davd was started to the one that applies while it serves. A davd that has more
// already keeps what it has, and is full.
func (p *process) limitMemory(config Config) error {
	allowed := config.allowance()
	if allowed == (allowance{}) {
		return nil
	}
	has, err := p.addressSpace()
	if err == nil && !allowed.isFull(has) {
		p.allowed = allowed
		err = p.setLimit(allowed.common)
	}
	if err != nil {
		return fmt.Errorf("its memory cannot be limited: %w", err)
	}
	if allowed.isFull(has) {
		p.isFull = true
		config.Log.Printf("davd has %s KiB of memory after it has loaded its folder, and -memory allows %s KiB, "+
			"of which %s KiB are for what frees memory. "+
			"Until the folder has less, or -memory is greater, requests that add something fail with 507.",
			kibibytes(has), kibibytes(config.Memory), kibibytes(allowed.reserve))
	}
	return nil
}

// addressSpace returns how many bytes the address space of davd has.
func (p *process) addressSpace() (int64, error) {
	return addressSpace(p.command.Process.Pid)
}

// setLimit limits the address space of davd to a number of bytes, up to what its allowance is at most.
func (p *process) setLimit(n int64) error {
	return setLimit(p.command.Process.Pid, n, p.allowed.most())
}
