package control

import (
	"context"
	"encoding/json"
	"fmt"
	"io"
	"net/http"
	"strconv"

	"davserve"
)

// filesPath is the path of the check of all files.
const filesPath = "/check"

// A CheckEvent is a line of the response to a check. It has one of these. The last line has the state of a check that has
// ended, and each other state is how far it is.
type CheckEvent struct {
	Found *davserve.CheckFinding `json:"found,omitempty"`
	State *davserve.CheckState   `json:"state,omitempty"`
}

// serveCheck answers POST with a check, and GET with the state of the last one.
func (h *Handler) serveCheck(w http.ResponseWriter, r *http.Request) {
	switch r.Method {
	case http.MethodPost:
		h.check(w, r)
	case http.MethodGet:
		writeJSON(w, h.source.Checked())
	default:
		refuseMethod(w, "GET, POST")
	}
}

// check answers with the events of a check, which ends when the client leaves.
func (h *Handler) check(w http.ResponseWriter, r *http.Request) {
	rate, err := strconv.ParseInt(r.URL.Query().Get("rate"), 10, 64)
	if err != nil || rate < 0 {
		http.Error(w, "the query has no rate in bytes a second", http.StatusBadRequest)
		return
	}
	if err := h.enter(); err != nil {
		http.Error(w, err.Error(), statusOf(err))
		return
	}
	defer h.serving.Done()
	lines := json.NewEncoder(w)
	write := func(event CheckEvent) {
		w.Header().Set("Content-Type", "application/x-ndjson")
		lines.Encode(event) // An error means that the client has left, and then the context is done.
		if flusher, ok := w.(http.Flusher); ok {
			flusher.Flush()
		}
	}
	state, err := h.source.CheckFiles(r.Context(), davserve.CheckOptions{
		Rate:     rate,
		Report:   func(found davserve.CheckFinding) { write(CheckEvent{Found: &found}) },
		Progress: func(state davserve.CheckState) { write(CheckEvent{State: &state}) },
	})
	if state.Ended == nil {
		http.Error(w, err.Error(), statusOf(err))
		return
	}
	if err != nil && r.Context().Err() != nil {
		state.Error = reasonOf(r.Context()).Error()
	}
	write(CheckEvent{State: &state})
}

// Check has the server that listens at a socket check all files, and passes on each event until the check has ended. It
// returns how it ended. When ctx is done, the server ends it.
func Check(ctx context.Context, socket string, rate int64, pass func(CheckEvent)) (davserve.CheckState, error) {
	none := davserve.CheckState{}
	if err := checkPath(socket); err != nil {
		return none, err
	}
	client := clientOf(socket)
	defer client.CloseIdleConnections()
	response, err := send(ctx, client, http.MethodPost, filesPath+"?rate="+strconv.FormatInt(rate, 10))
	if err != nil {
		return none, noAnswer(socket, err)
	}
	defer response.Body.Close()
	if response.StatusCode != http.StatusOK {
		text, _ := io.ReadAll(io.LimitReader(response.Body, longestMessage))
		return none, answer{response.StatusCode, text}.refusal("checks nothing")
	}
	for lines := json.NewDecoder(response.Body); ; {
		var event CheckEvent
		if err := lines.Decode(&event); err != nil {
			return none, fmt.Errorf("the server broke the check off: %w", err)
		}
		if event.State != nil && event.State.Ended != nil {
			return *event.State, nil
		}
		pass(event)
	}
}
