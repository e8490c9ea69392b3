package davd

import (
	"strconv"

	"davserve/internal/metrics"
)

var (
	frameBounds = []float64{1, 2, 4, 8, 16, 32, 64, 128, batchFrames}
	byteBounds  = []float64{1 << 10, 4 << 10, 16 << 10, 64 << 10, 256 << 10, 1 << 20, batchBytes}
)

// stats are what an engine measures of its batches.
type stats struct {
	frames *metrics.Histogram
	bytes  *metrics.Histogram
	times  *metrics.Vec[metrics.Histogram] // by whether the batch changes something
}

func newStats() *stats {
	s := &stats{
		frames: metrics.NewHistogram(frameBounds),
		bytes:  metrics.NewHistogram(byteBounds),
		times:  metrics.NewTimes("changes"),
	}
	for _, changes := range []bool{false, true} {
		s.times.With(strconv.FormatBool(changes)) // So that it is there from the start.
	}
	return s
}

// sent counts a batch that was written.
func (s *stats) sent(b *batch) {
	size := 0
	for _, c := range b.calls {
		size += c.size()
	}
	s.frames.Observe(float64(b.frames()))
	s.bytes.Observe(float64(size))
}

// served counts a batch whose replies were read.
func (s *stats) served(b *batch) {
	took := b.took
	if took < 0 {
		took = 0 // Its replies came before who wrote it was awake again.
	}
	s.times.With(strconv.FormatBool(b.changes())).ObserveTime(took)
}

// A Status is what a davd does at a time.
type Status struct {
	Up      bool // it serves
	Full    bool // it has more memory than it may
	Loading bool // it is started, and loads its folder
}

// WriteTo writes the metrics of a status.
func (s Status) WriteTo(e *metrics.Encoder) {
	e.Gauge("davserve_davd_up", "1 while davd serves, 0 while it does not run or loads its folder.", oneIf(s.Up))
	e.Gauge("davserve_davd_loading", "1 while davd loads its folder.", oneIf(s.Loading))
	e.Gauge("davserve_davd_full", "1 while davd has more memory than it may, and nothing can be added.", oneIf(s.Full))
}

func oneIf(is bool) float64 {
	if is {
		return 1
	}
	return 0
}

// WriteMetrics writes the metrics of davd and its batches.
func (e *Engine) WriteMetrics(to *metrics.Encoder) {
	e.mu.Lock()
	status := Status{Up: e.process != nil && !e.closing, Loading: e.loading}
	waiting, started, memory := len(e.waiting), e.started, int64(0)
	if e.process != nil {
		status.Full = e.process.hasNoRoom()
		memory, _ = addressSpace(e.process.command.Process.Pid) // On other systems than Linux it is not known.
	}
	e.mu.Unlock()
	status.WriteTo(to)
	to.Counter("davserve_davd_restarts_total", "How many times davd was started again.", started)
	if memory > 0 {
		to.Gauge("davserve_davd_memory_bytes", "The address space of davd, which -memory limits.", float64(memory))
	}
	if e.config.Memory > 0 {
		to.Gauge("davserve_davd_memory_limit_bytes", "The option -memory.", float64(e.config.Memory))
	}
	to.Gauge("davserve_frames_waiting", "Frames that are in no batch yet.", float64(waiting))
	to.Histogram("davserve_batch_frames", "Frames of each batch that was sent to davd.", e.stats.frames)
	to.Histogram("davserve_batch_bytes", "Bytes of the frames of each batch.", e.stats.bytes)
	to.Histograms("davserve_batch_duration_seconds",
		"Time from when davd had a batch, and had answered the one before, until its replies came.", e.stats.times)
}
