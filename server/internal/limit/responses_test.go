package limit

import (
	"io"
	"net/http"
	"testing"
	"time"
)

// With HTTP/2 a client that takes nothing of a response loses its connection, also if the handler has returned.
func TestResponses(t *testing.T) {
	tests := []struct {
		name string
		h2   bool
		size int
	}{
		{"a large response", true, 8 << 20},
		{"HTTP/1.1 is left to the connection", false, 0},
	}
	for _, test := range tests {
		test := test
		t.Run(test.name, func(t *testing.T) {
			t.Parallel()
			const stall = 200 * time.Millisecond
			ended := make(chan error, 1)
			h := Responses(Pace{Stall: stall, Least: 1 << 20}, http.HandlerFunc(func(w http.ResponseWriter, r *http.Request) {
				if _, isPaced := w.(*pacedResponse); isPaced != test.h2 {
					t.Errorf("the response is watched: %v", isPaced)
				}
				_, err := w.Write(make([]byte, test.size))
				ended <- err
			}))
			server := serve(t, h, true, test.h2)
			start := time.Now()
			response, err := server.Client().Get(server.URL)
			if err != nil {
				t.Fatal(err)
			}
			defer response.Body.Close()
			select {
			case err := <-ended:
				if (err != nil) != test.h2 {
					t.Errorf("the write ends with %v", err)
				}
				if d := time.Since(start); test.h2 && d < stall {
					t.Errorf("the handler ended after %v", d)
				}
			case <-time.After(20 * time.Second):
				t.Error("the handler did not end")
			}
			if _, err := io.Copy(io.Discard, response.Body); (err != nil) != test.h2 {
				t.Errorf("the client reads to the end: %v", err)
			}
		})
	}
}
