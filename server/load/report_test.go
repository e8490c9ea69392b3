package main

import (
	"strings"
	"testing"
	"time"
)

func TestGrouped(t *testing.T) {
	for _, c := range []struct {
		number float64
		want   string
	}{
		{0, "0"}, {12.5, "12"}, {999.4, "999"}, {999.6, "1,000"}, {1234567, "1,234,567"},
	} {
		if got := grouped(c.number); got != c.want {
			t.Errorf("grouped(%v) = %s, want %s", c.number, got, c.want)
		}
	}
}

func TestWriteTables(t *testing.T) {
	plain := &row{kind: get, connections: 8, server: "a", rates: []float64{3000, 1000, 2000}, written: []float64{0, 0, 0}}
	plain.times.add(2 * time.Millisecond)
	plain.failures = map[string]int{"503": 2, "no response": 1}
	beside := &row{kind: mixed, connections: 1, server: "a", rates: []float64{10}, written: []float64{200}}
	beside.times.add(time.Second)
	for _, c := range []struct {
		rows []*row
		want string
	}{
		{nil, ""},
		{[]*row{plain}, `| kind | connections | server | requests/s | of the rounds | p50 ms | p99 ms | max ms | errors |
|---|---|---|---|---|---|---|---|---|
| get | 8 | a | 2,000 | 1,000 to 3,000 | 2.00 | 2.00 | 2.00 | 503: 2, no response: 1 |

`},
		{[]*row{beside}, `| server | GET p50 ms | p99 ms | max ms | GET/s | PUT MB/s | errors |
|---|---|---|---|---|---|---|
| a | 1000.00 | 1000.00 | 1000.00 | 10 | 200 | none |

`},
	} {
		var out strings.Builder
		if err := writeTables(&out, c.rows); err != nil || out.String() != c.want {
			t.Errorf("the tables are\n%s%v, want\n%s", out.String(), err, c.want)
		}
	}
}

// TestAddRound has one worker with 10 requests in 2 seconds, one with 5 in 1, and a writer with 3 in 3.
func TestAddRound(t *testing.T) {
	work := func(requests int, lasted time.Duration) *worker {
		w := &worker{lasted: lasted}
		for i := 0; i < requests; i++ {
			w.add(200, time.Millisecond, nil)
		}
		return w
	}
	writer := work(3, 3*time.Second)
	writer.add(507, 0, nil)
	var r row
	r.addRound(&crew{
		workers: []*worker{work(10, 2*time.Second), work(5, time.Second), work(0, 0)},
		writers: []*worker{writer},
	})
	if r.rates[0] != 10 || r.written[0] != 20 || r.times.total != 15 || r.failures["PUT 507"] != 1 {
		t.Errorf("rates %v, written %v, %d times, failures %v", r.rates, r.written, r.times.total, r.failures)
	}
}
