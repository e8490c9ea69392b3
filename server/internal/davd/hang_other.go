//go:build !linux

package davd

import "errors"

var errNoThreads = errors.New("the threads of a running process cannot be seen")

// threadsOf returns an error. So no davd is taken for one that hangs.
func threadsOf(int) (threads, error) { return threads{}, errNoThreads }
