package main

import "golang.org/x/sys/unix"

// The calls that read and set the state of a terminal.
const (
	getTermios = unix.TCGETS
	setTermios = unix.TCSETS
)
