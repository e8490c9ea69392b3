package metrics

import (
	"bytes"
	"errors"
	"math"
	"strings"
	"sync"
	"testing"
	"time"
)

// encoded returns what a function has an encoder write.
func encoded(t *testing.T, write func(*Encoder)) string {
	t.Helper()
	var b bytes.Buffer
	e := NewEncoder(&b)
	write(e)
	if err := e.Flush(); err != nil {
		t.Fatal(err)
	}
	return b.String()
}

// lines joins lines.
func lines(all ...string) string { return strings.Join(all, "\n") + "\n" }

func TestEncoder(t *testing.T) {
	requests := NewCounters("method", "status")
	requests.With("PUT", "201").Add(2)
	requests.With("GET", "404").Add(1)
	requests.With("GET", "200").Add(3)
	sizes := NewHistogram([]float64{1, 2.5})
	for _, value := range []float64{0, 1, 2, 2.5, 3} {
		sizes.Observe(value)
	}
	times := NewVec(func() *Histogram { return NewHistogram([]float64{.5}) }, "method")
	times.With("GET").ObserveTime(250 * time.Millisecond)
	tests := []struct {
		name  string
		write func(*Encoder)
		want  string
	}{
		{
			"a counter", func(e *Encoder) { e.Counter("c_total", "What it is.", 1<<40) },
			lines("# HELP c_total What it is.", "# TYPE c_total counter", "c_total 1099511627776"),
		}, {
			"a gauge", func(e *Encoder) { e.Gauge("g", "h", 0.25) },
			lines("# HELP g h", "# TYPE g gauge", "g 0.25"),
		}, {
			"great and small values", func(e *Encoder) {
				e.Gauges("g", "h", func(sample func(float64, ...string)) {
					for _, value := range []float64{1e300, -2, 1 << 53, math.Inf(1), math.Inf(-1), math.NaN(), 1e-9} {
						sample(value)
					}
				})
			},
			lines("# HELP g h", "# TYPE g gauge", "g 1e+300", "g -2", "g 9.007199254740992e+15", "g +Inf", "g -Inf", "g NaN", "g 1e-09"),
		}, {
			"what is escaped", func(e *Encoder) { e.Gauge("g", "a \\ \"\nb", 1, "one", "x\\y\"z\n", "two", "é,}") },
			lines(`# HELP g a \\ "\nb`, "# TYPE g gauge", `g{one="x\\y\"z\n",two="é,}"} 1`),
		}, {
			"a gauge without samples", func(e *Encoder) { e.Gauges("g", "h", func(func(float64, ...string)) {}) },
			lines("# HELP g h", "# TYPE g gauge"),
		}, {
			"counters by labels", func(e *Encoder) { e.Counters("r_total", "h", requests) },
			lines("# HELP r_total h", "# TYPE r_total counter",
				`r_total{method="GET",status="200"} 3`, `r_total{method="GET",status="404"} 1`, `r_total{method="PUT",status="201"} 2`),
		}, {
			"a histogram", func(e *Encoder) { e.Histogram("s_bytes", "h", sizes) },
			lines("# HELP s_bytes h", "# TYPE s_bytes histogram",
				`s_bytes_bucket{le="1"} 2`, `s_bytes_bucket{le="2.5"} 4`, `s_bytes_bucket{le="+Inf"} 5`, "s_bytes_sum 8.5", "s_bytes_count 5"),
		}, {
			"histograms by labels", func(e *Encoder) { e.Histograms("t_seconds", "h", times) },
			lines("# HELP t_seconds h", "# TYPE t_seconds histogram",
				`t_seconds_bucket{method="GET",le="0.5"} 1`, `t_seconds_bucket{method="GET",le="+Inf"} 1`,
				`t_seconds_sum{method="GET"} 0.25`, `t_seconds_count{method="GET"} 1`),
		},
	}
	for _, test := range tests {
		if got := encoded(t, test.write); got != test.want {
			t.Errorf("%s:\n%s\nwant:\n%s", test.name, got, test.want)
		}
	}
}

func TestSecondsAscend(t *testing.T) {
	for i := 1; i < len(Seconds); i++ {
		if Seconds[i] <= Seconds[i-1] {
			t.Errorf("%v follows %v", Seconds[i], Seconds[i-1])
		}
	}
}

func TestManyGoroutinesCount(t *testing.T) {
	const workers, times = 16, 500
	counters := NewCounters("worker")
	histogram := NewHistogram([]float64{1})
	var group sync.WaitGroup
	for i := 0; i < workers; i++ {
		group.Add(1)
		go func(name string) {
			defer group.Done()
			for k := 0; k < times; k++ {
				counters.With(name).Add(1)
				histogram.Observe(0.5)
				if k%100 == 0 {
					encoded(t, func(e *Encoder) {
						e.Counters("c", "h", counters)
						e.Histogram("h", "h", histogram)
					})
				}
			}
		}(string(rune('a' + i%4)))
	}
	group.Wait()
	for _, name := range []string{"a", "b", "c", "d"} {
		if got := counters.With(name).Value(); got != workers/4*times {
			t.Errorf("%s: %d", name, got)
		}
	}
	if got := histogram.Sum(); got != workers*times/2 {
		t.Errorf("the sum is %v", got)
	}
}

// A failing writer fails.
type failing struct{}

var errFull = errors.New("the disk is full")

// Write implements io.Writer.
func (failing) Write([]byte) (int, error) { return 0, errFull }

func TestFlushReturnsTheError(t *testing.T) {
	e := NewEncoder(failing{})
	e.Gauge("g", strings.Repeat("h", 10_000), 1)
	e.Counter("c", "h", 1)
	if err := e.Flush(); !errors.Is(err, errFull) {
		t.Errorf("Flush: %v", err)
	}
}
