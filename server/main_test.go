package davserve

import (
	"flag"
	"fmt"
	"os"
	"os/exec"
	"path/filepath"
	"testing"
)

// TestMain has DAVD name the program davd: the one that the gate builds, or else one in PATH. Examples cannot be skipped
// as tests are, so without davd only the tests run, unless -run names what runs.
func TestMain(m *testing.M) {
	flag.Parse()
	if program := findDavd(); program != "" {
		os.Setenv("DAVD", program)
	} else if run := flag.Lookup("test.run"); run.Value.String() == "" {
		fmt.Fprintln(os.Stderr, "no davd: the examples are not run")
		run.Value.Set("^(Test|Fuzz)")
	}
	os.Exit(m.Run())
}

// findDavd returns the path of davd, or "" if there is none.
func findDavd() string {
	if program := os.Getenv("DAVD"); program != "" {
		return program
	}
	if program, err := filepath.Abs("../crates/davd/out/davd"); err == nil {
		if _, err := os.Stat(program); err == nil {
			return program
		}
	}
	program, err := exec.LookPath("davd")
	if err != nil {
		return ""
	}
	return program
}
