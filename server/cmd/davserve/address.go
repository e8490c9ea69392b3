package main

import (
	"errors"
	"flag"
)

// An address says which server a command is for: by its folder, or by its socket.
type address struct {
	folder string
	socket string
}

// add adds the options that set it.
func (a *address) add(flags *flag.FlagSet) {
	flags.Func("folder", "the `folder` of the server, as its option -folder", notEmpty(&a.folder))
	flags.Func("socket", "`path` of the socket of the server, as its option -socket", notEmpty(&a.socket))
}

// path returns the path of the socket.
func (a *address) path() (string, error) {
	switch {
	case (a.folder == "") == (a.socket == ""):
		return "", errors.New("it needs one of -folder and -socket")
	case a.folder != "":
		return socketIn(a.folder), nil
	}
	return a.socket, nil
}
