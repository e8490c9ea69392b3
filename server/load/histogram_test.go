package main

import (
	"math"
	"math/rand"
	"sort"
	"testing"
	"time"
)

func TestBuckets(t *testing.T) {
	for _, d := range []time.Duration{0, 1, 63, 64, 127, 128, 129, 255, 256, 1000, 123456789, time.Hour, math.MaxInt64} {
		b := bucketOf(d)
		if b < 0 || b >= buckets {
			t.Fatalf("bucketOf(%d) = %d, which is none of %d", d, b, buckets)
		}
		most := longestOf(b)
		if most < d || float64(most-d) > float64(d)/steps || bucketOf(most) != b {
			t.Errorf("the bucket of %d ends with %d", d, most)
		}
		if most < math.MaxInt64 && bucketOf(most+1) != b+1 {
			t.Errorf("bucketOf(%d) = %d, want the one after %d", most+1, bucketOf(most+1), b)
		}
	}
}

func TestPercentile(t *testing.T) {
	for _, c := range []struct {
		name  string
		times []time.Duration
		p     float64
		want  time.Duration
	}{
		{"none", nil, 50, 0},
		{"one", []time.Duration{7}, 50, 7},
		{"one, of it the longest", []time.Duration{7}, 100, 7},
		{"the lower of two", []time.Duration{5, 9}, 50, 5},
		{"the middle of three", []time.Duration{9, 1, 5}, 50, 5},
		{"p99 of three is the longest", []time.Duration{9, 1, 5}, 99, 9},
		{"negative counts as 0", []time.Duration{-1}, 50, 0},
		{"the longest is exact", []time.Duration{1_000_001}, 50, 1_000_001},
	} {
		var h histogram
		for _, d := range c.times {
			h.add(d)
		}
		if got := h.percentile(c.p); got != c.want {
			t.Errorf("%s: percentile(%v) = %d, want %d", c.name, c.p, got, c.want)
		}
	}
}

// TestPercentileOfMany compares with the sorted durations.
func TestPercentileOfMany(t *testing.T) {
	chance := rand.New(rand.NewSource(1))
	var parts [3]histogram
	var all []time.Duration
	for i := 0; i < 10_000; i++ {
		d := time.Duration(math.Exp(chance.Float64() * 25))
		all = append(all, d)
		parts[i%len(parts)].add(d)
	}
	var h histogram
	for i := range parts {
		h.merge(&parts[i])
	}
	sort.Slice(all, func(i, j int) bool { return all[i] < all[j] })
	for _, p := range []float64{1, 50, 90, 99, 99.9, 100} {
		want := all[int(math.Ceil(p/100*float64(len(all))))-1]
		got := h.percentile(p)
		if got < want || float64(got-want) > float64(want)/steps {
			t.Errorf("percentile(%v) = %d, want %d or up to 1/%d more", p, got, want, steps)
		}
	}
	if h.total != uint64(len(all)) || h.longest != all[len(all)-1] {
		t.Errorf("%d durations up to %d, want %d up to %d", h.total, h.longest, len(all), all[len(all)-1])
	}
}

func TestMedian(t *testing.T) {
	for _, c := range []struct {
		numbers []float64
		want    float64
	}{
		{nil, 0}, {[]float64{3}, 3}, {[]float64{3, 1}, 2}, {[]float64{3, 1, 2}, 2}, {[]float64{4, 1, 3, 2}, 2.5},
	} {
		if got := median(c.numbers); got != c.want {
			t.Errorf("median(%v) = %v, want %v", c.numbers, got, c.want)
		}
	}
}
