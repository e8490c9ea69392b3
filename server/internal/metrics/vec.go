package metrics

import (
	"sort"
	"strings"
	"sync"
	"sync/atomic"
)

// A Counter counts. The zero value is 0. Its methods may be called at the same time.
type Counter struct {
	n atomic.Uint64
}

// Add adds to the counter.
func (c *Counter) Add(n uint64) { c.n.Add(n) }

// Value returns what was counted.
func (c *Counter) Value() uint64 { return c.n.Load() }

// A Vec has a T for each combination of values that its labels have had. The caller bounds how many these are: none is
// ever removed. Its methods may be called at the same time.
type Vec[T any] struct {
	create func() *T
	labels []string

	mu     sync.RWMutex
	series map[string]*T
}

// NewVec returns a Vec with labels of these names, which calls create for each new combination of values.
func NewVec[T any](create func() *T, labels ...string) *Vec[T] {
	return &Vec[T]{create: create, labels: labels, series: map[string]*T{}}
}

// NewCounters returns a Vec of counters.
func NewCounters(labels ...string) *Vec[Counter] {
	return NewVec(func() *Counter { return new(Counter) }, labels...)
}

// separator is between the values of a key. No valid UTF-8 has it.
const separator = "\xff"

// With returns the T of these values, one for each label.
func (v *Vec[T]) With(values ...string) *T {
	key := strings.Join(values, separator)
	v.mu.RLock()
	found := v.series[key]
	v.mu.RUnlock()
	if found != nil {
		return found
	}
	v.mu.Lock()
	defer v.mu.Unlock()
	if v.series[key] == nil {
		v.series[key] = v.create()
	}
	return v.series[key]
}

// each calls a function for each T, with its labels as pairs, in the order of their values.
func (v *Vec[T]) each(visit func(labels []string, t *T)) {
	v.mu.RLock()
	defer v.mu.RUnlock()
	keys := make([]string, 0, len(v.series))
	for key := range v.series {
		keys = append(keys, key)
	}
	sort.Strings(keys)
	for _, key := range keys {
		var pairs []string
		for i, value := range strings.Split(key, separator) {
			pairs = append(pairs, v.labels[i], value)
		}
		visit(pairs, v.series[key])
	}
}
