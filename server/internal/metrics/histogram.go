package metrics

import (
	"math"
	"sort"
	"sync/atomic"
	"time"
)

// Seconds are bounds of buckets for times, from a millisecond to a minute.
var Seconds = []float64{.001, .0025, .005, .01, .025, .05, .1, .25, .5, 1, 2.5, 5, 10, 60}

// A Histogram counts values in buckets. Its methods may be called at the same time.
type Histogram struct {
	bounds []float64
	counts []atomic.Uint64 // one for each bound, and one for what is greater than all
	sum    atomic.Uint64   // the bits of a float64
}

// NewHistogram returns a histogram whose buckets have these upper bounds, in ascending order. A value that is a bound is
// in its bucket.
func NewHistogram(bounds []float64) *Histogram {
	return &Histogram{bounds: bounds, counts: make([]atomic.Uint64, len(bounds)+1)}
}

// NewTimes returns a Vec of histograms for times in seconds.
func NewTimes(labels ...string) *Vec[Histogram] {
	return NewVec(func() *Histogram { return NewHistogram(Seconds) }, labels...)
}

// Observe counts a value.
func (h *Histogram) Observe(value float64) {
	h.counts[sort.SearchFloat64s(h.bounds, value)].Add(1)
	for {
		old := h.sum.Load()
		if h.sum.CompareAndSwap(old, math.Float64bits(math.Float64frombits(old)+value)) {
			return
		}
	}
}

// ObserveTime counts a duration, in seconds.
func (h *Histogram) ObserveTime(d time.Duration) {
	h.Observe(d.Seconds())
}

// Sum returns the sum of all values.
func (h *Histogram) Sum() float64 {
	return math.Float64frombits(h.sum.Load())
}
