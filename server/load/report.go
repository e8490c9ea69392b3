package main

import (
	"encoding/json"
	"fmt"
	"io"
	"os"
	"runtime"
	"sort"
	"strconv"
	"strings"
	"time"
)

// A row is what all rounds of one kind with one number of connections measured of one server.
type row struct {
	kind        kind
	connections int
	server      string
	rates       []float64 // requests a second, by round
	written     []float64 // MB a second that the writers of mixed stored, by round
	tally
}

func (r *row) addRound(c *crew) {
	var rate, written float64
	for _, w := range c.workers {
		rate += w.rate()
		r.merge(&w.tally)
	}
	for _, w := range c.writers {
		written += w.rate() * largeBytes / 1e6
		for name, count := range w.failures {
			r.fail("PUT "+name, count)
		}
	}
	r.rates = append(r.rates, rate)
	r.written = append(r.written, written)
}

// writeTables writes a table of all kinds except mixed, and one of mixed.
func writeTables(out io.Writer, rows []*row) error {
	var plain, beside [][]string
	for _, r := range rows {
		times := []string{milliseconds(r.times.percentile(50)), milliseconds(r.times.percentile(99)),
			milliseconds(r.times.longest)}
		if r.kind == mixed {
			cells := append([]string{r.server}, times...)
			cells = append(cells, grouped(median(r.rates)), grouped(median(r.written)), r.errors())
			beside = append(beside, cells)
			continue
		}
		cells := []string{string(r.kind), strconv.Itoa(r.connections), r.server, grouped(median(r.rates)), r.spread()}
		plain = append(plain, append(append(cells, times...), r.errors()))
	}
	var text strings.Builder
	writeTable(&text, []string{"kind", "connections", "server", "requests/s", "of the rounds", "p50 ms", "p99 ms",
		"max ms", "errors"}, plain)
	writeTable(&text, []string{"server", "GET p50 ms", "p99 ms", "max ms", "GET/s", "PUT MB/s", "errors"}, beside)
	_, err := io.WriteString(out, text.String())
	return err
}

// writeLargeTable writes a table of the rows of measureLarge.
func writeLargeTable(out io.Writer, rows []*row) error {
	var lines [][]string
	for ; len(rows) > 0; rows = rows[len(largeKinds):] {
		cells, all := []string{rows[0].server}, row{}
		for _, r := range rows[:len(largeKinds)] {
			cells = append(cells, grouped(median(r.rates)), r.spread())
			all.merge(&r.tally)
		}
		lines = append(lines, append(cells, all.errors()))
	}
	var text strings.Builder
	writeTable(&text, []string{"server", "PUT MB/s", "of the rounds", "PUT and sync MB/s", "of the rounds", "GET MB/s",
		"of the rounds", "errors"}, lines)
	_, err := io.WriteString(out, text.String())
	return err
}

// writeTable writes a table and an empty line, or nothing if it has no rows.
func writeTable(text *strings.Builder, head []string, rows [][]string) {
	if len(rows) == 0 {
		return
	}
	line := func(cells []string) { text.WriteString("| " + strings.Join(cells, " | ") + " |\n") }
	line(head)
	text.WriteString(strings.Repeat("|---", len(head)) + "|\n")
	for _, cells := range rows {
		line(cells)
	}
	text.WriteString("\n")
}

// spread returns the least and the greatest rate of the rounds.
func (r *row) spread() string {
	if len(r.rates) == 0 {
		return "none"
	}
	sorted := append([]float64(nil), r.rates...)
	sort.Float64s(sorted)
	return grouped(sorted[0]) + " to " + grouped(sorted[len(sorted)-1])
}

// errors returns how many requests failed in which way.
func (r *row) errors() string {
	if len(r.failures) == 0 {
		return "none"
	}
	var parts []string
	for name, count := range r.failures {
		parts = append(parts, fmt.Sprintf("%s: %d", name, count))
	}
	sort.Strings(parts)
	return strings.Join(parts, ", ")
}

func milliseconds(d time.Duration) string {
	return strconv.FormatFloat(float64(d)/float64(time.Millisecond), 'f', 2, 64)
}

// grouped returns a number, rounded, with a comma before each three digits.
func grouped(number float64) string {
	digits := strconv.FormatFloat(number, 'f', 0, 64)
	for at := len(digits) - 3; at > 0; at -= 3 {
		digits = digits[:at] + "," + digits[at:]
	}
	return digits
}

// jsonRow is a row in a file of JSON. Times are in milliseconds.
type jsonRow struct {
	Kind        kind           `json:"kind"`
	Connections int            `json:"connections"`
	Server      string         `json:"server"`
	Rate        float64        `json:"rate"`
	Rates       []float64      `json:"rates"`
	P50         float64        `json:"p50"`
	P99         float64        `json:"p99"`
	Max         float64        `json:"max"`
	PutMBs      float64        `json:"put_mb_s,omitempty"`
	Errors      map[string]int `json:"errors"`
}

func writeJSON(o options, rows []*row) error {
	report := struct {
		Seconds    float64   `json:"seconds"`
		Rounds     int       `json:"rounds"`
		Processors int       `json:"processors"`
		Rows       []jsonRow `json:"rows"`
	}{Seconds: o.duration.Seconds(), Rounds: o.rounds, Processors: runtime.NumCPU()}
	number := func(d time.Duration) float64 { return float64(d) / float64(time.Millisecond) }
	for _, r := range rows {
		j := jsonRow{Kind: r.kind, Connections: r.connections, Server: r.server, Rates: r.rates,
			Rate: median(r.rates), PutMBs: median(r.written), Errors: r.failures,
			P50: number(r.times.percentile(50)), P99: number(r.times.percentile(99)), Max: number(r.times.longest)}
		if j.Errors == nil {
			j.Errors = map[string]int{}
		}
		report.Rows = append(report.Rows, j)
	}
	text, err := json.MarshalIndent(report, "", "  ")
	if err != nil {
		return fmt.Errorf("the results as JSON: %w", err)
	}
	return os.WriteFile(o.json, append(text, '\n'), 0o644)
}
