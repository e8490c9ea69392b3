package davd

import (
	"bytes"
	"strings"
	"sync"
	"testing"
	"time"

	"davserve/internal/frame"
	"davserve/internal/metrics"
)

// metricsOf returns the lines of the metrics of an engine without comments.
func metricsOf(t *testing.T, engine *Engine) map[string]string {
	t.Helper()
	var b bytes.Buffer
	encoder := metrics.NewEncoder(&b)
	engine.WriteMetrics(encoder)
	if err := encoder.Flush(); err != nil {
		t.Fatal(err)
	}
	samples := map[string]string{}
	for _, line := range strings.Split(strings.TrimSpace(b.String()), "\n") {
		if name, value, _ := strings.Cut(line, " "); name != "#" {
			samples[name] = value
		}
	}
	return samples
}

// awaitMetrics waits until some metrics of an engine are these: a batch is measured after its calls are finished.
func awaitMetrics(t *testing.T, engine *Engine, want map[string]string) {
	t.Helper()
	for end := time.Now().Add(5 * time.Second); ; time.Sleep(time.Millisecond) {
		got := metricsOf(t, engine)
		wrong := ""
		for name, value := range want {
			if got[name] != value {
				wrong = name
			}
		}
		switch {
		case wrong == "":
			return
		case time.Now().After(end):
			t.Fatalf("%s is %q, want %q", wrong, got[wrong], want[wrong])
		}
	}
}

func TestBatchesAreMeasured(t *testing.T) {
	engine, _ := startFake(t, "slow")
	doChange(t, engine)
	processOf(t, engine)
	if _, err := engine.Do(soon(t), frame.DropBody{}); err != nil {
		t.Fatal(err)
	}
	awaitMetrics(t, engine, map[string]string{
		"davserve_davd_up":                                                 "1",
		"davserve_davd_loading":                                            "0",
		"davserve_davd_full":                                               "0",
		"davserve_davd_restarts_total":                                     "0",
		"davserve_frames_waiting":                                          "0",
		"davserve_batch_frames_count":                                      "3",
		"davserve_batch_frames_sum":                                        "3",
		"davserve_batch_bytes_count":                                       "3",
		`davserve_batch_duration_seconds_count{changes="true"}`:            "1",
		`davserve_batch_duration_seconds_count{changes="false"}`:           "2",
		`davserve_batch_duration_seconds_bucket{changes="true",le="0.01"}`: "0",
	})
}

func TestABatchIsNotMeasuredWhileTheOneBeforeIsServed(t *testing.T) {
	engine, _ := startFake(t, "slow")
	const batches = 12 // of 20 ms each, up to four under way
	var group sync.WaitGroup
	began := time.Now()
	for i := 0; i < batches; i++ {
		group.Add(1)
		go func() {
			defer group.Done()
			doChange(t, engine)
		}()
		time.Sleep(time.Millisecond)
	}
	group.Wait()
	took := time.Since(began).Seconds()
	if sum := engine.stats.times.With("true").Sum(); sum > took {
		t.Errorf("all batches together took %v of %v seconds", sum, took)
	}
}

func TestARestartIsCounted(t *testing.T) {
	engine, _, _ := startOver(t, "sound", quickOver)
	kill(t, engine)
	doChange(t, engine)
	awaitMetrics(t, engine, map[string]string{"davserve_davd_up": "1", "davserve_davd_restarts_total": "1"})
}

func TestADavdThatLoadsIsNotUp(t *testing.T) {
	engine, _, _ := startOver(t, "sound, is mute", quickOver)
	engine.mu.Lock()
	engine.process.kill()
	engine.mu.Unlock()
	awaitMetrics(t, engine, map[string]string{
		"davserve_davd_up": "0", "davserve_davd_loading": "1", "davserve_davd_restarts_total": "0",
	})
}
