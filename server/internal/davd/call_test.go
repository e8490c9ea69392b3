package davd

import (
	"testing"

	"davserve/internal/frame"
)

func TestOnlyWhatIsSureCountsAsKept(t *testing.T) {
	part := []frame.Field{{Name: "Content-Range", Value: "bytes 0-0/*"}}
	tests := []struct {
		frame        frame.Frame
		ok201, ok204 bool
	}{
		{&frame.Request{Method: "PUT"}, true, true},
		{&frame.Request{Method: "PUT", Fields: part}, true, false},
		{&frame.Request{Method: "MOVE"}, true, true},
		{&frame.Request{Method: "MKCOL"}, true, false},
		{&frame.Request{Method: "COPY"}, true, false},
		{&frame.Request{Method: "DELETE"}, false, false},
		{&frame.Request{Method: "PATCH"}, false, false},
		{&frame.Request{Method: "PROPPATCH"}, false, false},
		{frame.StartBody{}, false, false},
	}
	for _, test := range tests {
		c := newCall(test.frame)
		for status, want := range map[uint64]bool{201: test.ok201, 204: test.ok204, 207: false, 423: false} {
			reply := append(numbered(0, status), make([]byte, 10)...)
			if got := c.hasMade([][]byte{{2}, reply, {2}}); got != want {
				t.Errorf("%s with %d counts as kept: %t, want %t", c.what, status, got, want)
			}
		}
	}
}
