package davd

import (
	"bytes"
	"fmt"
	"math"
	"os"
	"strconv"
	"syscall"
	"unsafe"
)

// canLimit reports whether the address space of a running process can be read and limited.
func canLimit() bool {
	if _, err := addressSpace(os.Getpid()); err != nil {
		return false
	}
	return prlimit(os.Getpid(), nil, &syscall.Rlimit{}) == nil
}

// greatestLimit returns the greatest limit that this process may give to the address space of another, in bytes.
func greatestLimit() int64 {
	var own syscall.Rlimit
	if err := syscall.Getrlimit(syscall.RLIMIT_AS, &own); err != nil || own.Max > math.MaxInt64 {
		return math.MaxInt64
	}
	return int64(own.Max)
}

// setLimit limits the address space of a running process to a number of bytes. It can be raised later, up to the most.
func setLimit(pid int, n, most int64) error {
	return prlimit(pid, &syscall.Rlimit{Cur: uint64(n), Max: uint64(most)}, nil)
}

// prlimit sets and returns limits of the address space of a running process, as prlimit(2) does. Nil: it does not.
func prlimit(pid int, limits, old *syscall.Rlimit) error {
	_, _, errno := syscall.RawSyscall6(syscall.SYS_PRLIMIT64, uintptr(pid), syscall.RLIMIT_AS,
		uintptr(unsafe.Pointer(limits)), uintptr(unsafe.Pointer(old)), 0, 0)
	if errno != 0 {
		return os.NewSyscallError("prlimit", errno)
	}
	return nil
}

// addressSpace returns how many bytes the address space of a running process has.
func addressSpace(pid int) (int64, error) {
	text, err := os.ReadFile(fmt.Sprintf("/proc/%d/statm", pid))
	if err != nil {
		return 0, err
	}
	pages, _, _ := bytes.Cut(text, []byte(" "))
	n, err := strconv.ParseInt(string(pages), 10, 64)
	if err != nil {
		return 0, fmt.Errorf("/proc/%d/statm: %w", pid, err)
	}
	return n * int64(os.Getpagesize()), nil
}
