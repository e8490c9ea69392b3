// Package metrics counts and measures, and writes the results in the text format of Prometheus.
package metrics

import (
	"bufio"
	"io"
	"math"
	"strconv"
	"strings"
)

// ContentType is the media type of what an Encoder writes.
const ContentType = "text/plain; version=0.0.4; charset=utf-8"

// An Encoder writes metrics. Each method writes one metric with all its samples. Labels are pairs: a name and its value.
// After an error it writes no more. Flush returns that error.
type Encoder struct {
	w *bufio.Writer
}

// NewEncoder returns an encoder that writes to w.
func NewEncoder(w io.Writer) *Encoder {
	return &Encoder{w: bufio.NewWriter(w)}
}

// Flush writes what is buffered, and returns the first error of all writes.
func (e *Encoder) Flush() error {
	return e.w.Flush()
}

// Counter writes a counter with one sample.
func (e *Encoder) Counter(name, help string, value uint64) {
	e.begin(name, help, "counter")
	e.sample(name, float64(value))
}

// Gauge writes a gauge with one sample.
func (e *Encoder) Gauge(name, help string, value float64, labels ...string) {
	e.begin(name, help, "gauge")
	e.sample(name, value, labels...)
}

// Gauges writes a gauge with the samples that the function passes on.
func (e *Encoder) Gauges(name, help string, each func(sample func(value float64, labels ...string))) {
	e.begin(name, help, "gauge")
	each(func(value float64, labels ...string) { e.sample(name, value, labels...) })
}

// Counters writes a counter with a sample for each combination of labels.
func (e *Encoder) Counters(name, help string, vec *Vec[Counter]) {
	e.begin(name, help, "counter")
	vec.each(func(labels []string, c *Counter) { e.sample(name, float64(c.Value()), labels...) })
}

// Histogram writes a histogram.
func (e *Encoder) Histogram(name, help string, h *Histogram) {
	e.begin(name, help, "histogram")
	e.histogram(name, h)
}

// Histograms writes a histogram for each combination of labels.
func (e *Encoder) Histograms(name, help string, vec *Vec[Histogram]) {
	e.begin(name, help, "histogram")
	vec.each(func(labels []string, h *Histogram) { e.histogram(name, h, labels...) })
}

// histogram writes the samples of a histogram. The count is the sum of the buckets that are written, so that they agree.
func (e *Encoder) histogram(name string, h *Histogram, labels ...string) {
	sum, total := h.Sum(), uint64(0)
	for i := range h.counts {
		total += h.counts[i].Load()
		bound := math.Inf(1)
		if i < len(h.bounds) {
			bound = h.bounds[i]
		}
		e.sample(name+"_bucket", float64(total), append(labels[:len(labels):len(labels)], "le", number(bound))...)
	}
	e.sample(name+"_sum", sum, labels...)
	e.sample(name+"_count", float64(total), labels...)
}

// begin writes what a metric is.
func (e *Encoder) begin(name, help, kind string) {
	e.w.WriteString("# HELP " + name + " " + escapedHelp.Replace(help) + "\n# TYPE " + name + " " + kind + "\n")
}

var (
	escapedHelp  = strings.NewReplacer(`\`, `\\`, "\n", `\n`)
	escapedValue = strings.NewReplacer(`\`, `\\`, "\n", `\n`, `"`, `\"`)
)

// sample writes a line.
func (e *Encoder) sample(name string, value float64, labels ...string) {
	e.w.WriteString(name)
	for i := 0; i+1 < len(labels); i += 2 {
		separator := ","
		if i == 0 {
			separator = "{"
		}
		e.w.WriteString(separator + labels[i] + `="` + escapedValue.Replace(labels[i+1]) + `"`)
	}
	if len(labels) > 0 {
		e.w.WriteString("}")
	}
	e.w.WriteString(" " + number(value) + "\n")
}

// number returns a value as the format has it.
func number(value float64) string {
	switch {
	case math.IsInf(value, 1):
		return "+Inf"
	case math.IsInf(value, -1):
		return "-Inf"
	case value == math.Trunc(value) && math.Abs(value) < 1<<53:
		return strconv.FormatInt(int64(value), 10)
	}
	return strconv.FormatFloat(value, 'g', -1, 64)
}
