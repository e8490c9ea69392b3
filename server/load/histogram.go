package main

import (
	"math"
	"math/bits"
	"sort"
	"time"
)

const (
	// steps is how many buckets each power of two has.
	steps = 64
	// buckets suffice for each positive number of nanoseconds that a time.Duration has.
	buckets = (63-6)*steps + steps
)

// A histogram counts durations in little memory. It knows each to 1/64 of its length, and the longest exactly.
type histogram struct {
	counts  [buckets]uint64
	total   uint64
	longest time.Duration
}

func (h *histogram) add(d time.Duration) {
	if d < 0 {
		d = 0
	}
	h.counts[bucketOf(d)]++
	h.total++
	if d > h.longest {
		h.longest = d
	}
}

func (h *histogram) merge(other *histogram) {
	for i, count := range other.counts {
		h.counts[i] += count
	}
	h.total += other.total
	if other.longest > h.longest {
		h.longest = other.longest
	}
}

// percentile returns the least duration that at least so many of a hundred do not exceed, or 0 if there are none.
func (h *histogram) percentile(p float64) time.Duration {
	wanted := uint64(math.Ceil(p / 100 * float64(h.total)))
	var count uint64
	for i := range h.counts {
		count += h.counts[i]
		if count > 0 && count >= wanted {
			if d := longestOf(i); d < h.longest {
				return d
			}
			return h.longest
		}
	}
	return 0
}

// bucketOf returns the bucket of a duration. Below 128 ns each duration has one of its own.
func bucketOf(d time.Duration) int {
	n := uint64(d)
	shift := bits.Len64(n|steps) - bits.Len64(steps)
	return shift*steps + int(n>>shift)
}

// longestOf returns the longest duration of a bucket.
func longestOf(bucket int) time.Duration {
	shift := 0
	if bucket >= 2*steps {
		shift = bucket/steps - 1
	}
	return time.Duration((uint64(bucket-shift*steps)+1)<<shift - 1)
}

// median returns the middle of the numbers, or 0 if there are none.
func median(numbers []float64) float64 {
	if len(numbers) == 0 {
		return 0
	}
	sorted := append([]float64(nil), numbers...)
	sort.Float64s(sorted)
	middle := len(sorted) / 2
	if len(sorted)%2 == 1 {
		return sorted[middle]
	}
	return (sorted[middle-1] + sorted[middle]) / 2
}
