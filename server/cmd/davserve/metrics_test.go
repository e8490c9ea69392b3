package main

import (
	"io"
	"log"
	"net/http"
	"net/http/httptest"
	"strings"
	"testing"
	"time"

	"davserve/internal/accesslog"
	"davserve/internal/metrics"
)

// scrape sends a request to a meter.
func scrape(m *meter, method, path string) *httptest.ResponseRecorder {
	recorder := httptest.NewRecorder()
	m.ServeHTTP(recorder, httptest.NewRequest(method, path, nil))
	return recorder
}

func testMeter() *meter {
	c := config{maxConnections: 7, maxRequests: 8}
	c.options.Folder = "folder"
	return newMeter(c, log.New(io.Discard, "", 0))
}

func TestAMeterHasBoundedLabels(t *testing.T) {
	m := testMeter()
	for _, r := range []accesslog.Request{
		{Method: "GET", Status: 200, Duration: 30 * time.Millisecond},
		{Method: "GET", Status: 200, Duration: 3 * time.Second},
		{Method: "GET", Aborted: true},
		{Method: "PUT", Status: 200, Aborted: true},
		{Method: "BREW", Status: 501},
		{Method: strings.Repeat("X", 1000), Status: 501},
		{Method: "get", Status: 501},
		{Method: "other\"\n", Status: 501},
	} {
		m.observe(r)
	}
	text := scrape(m, "GET", "/metrics").Body.String()
	for _, line := range []string{
		`davserve_requests_total{method="GET",status="200"} 2`,
		`davserve_requests_total{method="GET",status="aborted"} 1`,
		`davserve_requests_total{method="PUT",status="aborted"} 1`,
		`davserve_requests_total{method="other",status="501"} 4`,
		`davserve_request_duration_seconds_bucket{method="GET",le="0.025"} 1`,
		`davserve_request_duration_seconds_bucket{method="GET",le="0.05"} 2`,
		`davserve_request_duration_seconds_count{method="GET"} 3`,
		"davserve_connections_limit 7",
		"davserve_requests_limit 8",
		"davserve_davd_up 0", // davd is not started yet.
		"davserve_davd_loading 1",
	} {
		if !strings.Contains(text, "\n"+line+"\n") {
			t.Errorf("no line %q in\n%s", line, text)
		}
	}
	if got := strings.Count(text, "\ndavserve_requests_total{"); got != 4 {
		t.Errorf("%d series of requests", got)
	}
}

func TestAMeterServesOnePath(t *testing.T) {
	tests := []struct {
		method, path string
		want         int
	}{
		{"GET", "/metrics", 200},
		{"HEAD", "/metrics", 200},
		{"GET", "/metrics/", 404},
		{"GET", "/", 404},
		{"POST", "/metrics", 405},
	}
	for _, test := range tests {
		recorder := scrape(testMeter(), test.method, test.path)
		if recorder.Code != test.want {
			t.Errorf("%s %s: status %d, want %d", test.method, test.path, recorder.Code, test.want)
		}
		if kind := recorder.Header().Get("Content-Type"); recorder.Code == 200 && kind != metrics.ContentType {
			t.Errorf("%s %s: the type is %q", test.method, test.path, kind)
		}
	}
}

func TestRequestsUnderWayAreCounted(t *testing.T) {
	m := testMeter()
	handler := m.around(http.HandlerFunc(func(w http.ResponseWriter, r *http.Request) {
		if got := m.underWay.Load(); got != 1 {
			t.Errorf("%d requests are under way", got)
		}
		panic(http.ErrAbortHandler)
	}))
	func() {
		defer func() { _ = recover() }()
		handler.ServeHTTP(httptest.NewRecorder(), httptest.NewRequest("GET", "/", nil))
	}()
	if got := m.underWay.Load(); got != 0 {
		t.Errorf("%d requests are under way after it has ended", got)
	}
}

func TestWithoutAMeterNothingIsAround(t *testing.T) {
	var m *meter
	m.show(nil)
	if m.around(nil) != nil || m.listener(nil) != nil || m.observers() != nil {
		t.Error("something is around")
	}
}
