package main

import (
	"bufio"
	"context"
	"errors"
	"fmt"
	"io"
	"os"
	"strings"

	"golang.org/x/sys/unix"

	"davserve/internal/auth"
)

// maxPasswordLine is how many bytes of a line with a password are read.
const maxPasswordLine = 4096

// askPassword returns a password for a user. On a terminal it asks for it twice, and shows nothing of it. Otherwise it is
// the first line of the input.
func askPassword(ctx context.Context, input *os.File, screen io.Writer, user string) (password string, err error) {
	lines := bufio.NewReader(io.LimitReader(input, 2*maxPasswordLine))
	if !isTerminal(input) {
		password, err = lineOf(ctx, lines)
	} else {
		password, err = askTwice(ctx, input, lines, screen, user)
	}
	if err != nil {
		return "", err
	}
	return password, auth.CheckPassword(password)
}

// askTwice asks for a password on a terminal.
func askTwice(ctx context.Context, terminal *os.File, lines *bufio.Reader, screen io.Writer, user string) (string, error) {
	shown, err := hideInput(terminal)
	if err != nil {
		return "", err
	}
	defer shown()
	fmt.Fprintf(screen, "Password of %s: ", printable(user))
	first, err := lineOf(ctx, lines)
	fmt.Fprintln(screen)
	if err == nil {
		err = auth.CheckPassword(first)
	}
	if err != nil {
		return "", err
	}
	fmt.Fprint(screen, "The same once more: ")
	second, err := lineOf(ctx, lines)
	fmt.Fprintln(screen)
	if err == nil && first != second {
		err = errors.New("the two passwords are not the same")
	}
	return first, err
}

// hideInput has a terminal not show what is typed, until the function that it returns is called.
func hideInput(terminal *os.File) (shown func(), err error) {
	before, err := unix.IoctlGetTermios(int(terminal.Fd()), getTermios)
	if err != nil {
		return nil, &os.PathError{Op: "read the state of", Path: terminal.Name(), Err: err}
	}
	hidden := *before
	hidden.Lflag &^= unix.ECHO
	hidden.Lflag |= unix.ICANON | unix.ISIG
	hidden.Iflag |= unix.ICRNL
	if err := unix.IoctlSetTermios(int(terminal.Fd()), setTermios, &hidden); err != nil {
		return nil, &os.PathError{Op: "set the state of", Path: terminal.Name(), Err: err}
	}
	return func() { unix.IoctlSetTermios(int(terminal.Fd()), setTermios, before) }, nil
}

// lineOf returns the next line, without its end. It does not wait for one after ctx is done.
func lineOf(ctx context.Context, lines *bufio.Reader) (string, error) {
	type result struct {
		line string
		err  error
	}
	read := make(chan result, 1)
	go func() {
		line, err := lines.ReadString('\n')
		if errors.Is(err, io.EOF) {
			err = nil // The last line may have no end.
		}
		read <- result{line, err}
	}()
	select {
	case got := <-read:
		return strings.TrimSuffix(strings.TrimSuffix(got.line, "\n"), "\r"), got.err
	case <-ctx.Done():
		return "", ctx.Err()
	}
}
