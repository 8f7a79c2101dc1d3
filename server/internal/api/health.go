package api

import (
	"encoding/json"
	"net/http"
)

// A Health is the condition of an office.
type Health struct {
	Ready bool   `json:"ready"`
	Why   string `json:"why,omitempty"`
	// Record says why commands are refused, or why entries of the record wait, although questions are answered.
	Record string `json:"record,omitempty"`
	// Open says that everybody who can connect may do everything.
	Open bool `json:"open,omitempty"`
	// Progress is that of a node of several machines, or nil.
	*Progress
}

// A Progress says what a node has done of the log.
type Progress struct {
	Revision int64 `json:"revision"`
	Count    int64 `json:"commands"`
	// Newest is the newest revision of the log that is known.
	Newest   int64   `json:"newest"`
	Snapshot int64   `json:"snapshot"`
	Age      float64 `json:"age"`
}

// Discreet returns the condition without reasons, which have paths of files and what programs have said.
func (h Health) Discreet() Health {
	if h.Why != "" {
		h.Why = "the office doesn't answer"
	}
	if h.Record != "" {
		h.Record = "commands can't be recorded"
	}
	return h
}

// Reply answers a request with the condition: with 200 if the office answers, and 503 if not.
func (h Health) Reply(w http.ResponseWriter) {
	w.Header().Set("Content-Type", "application/json")
	if !h.Ready {
		w.WriteHeader(http.StatusServiceUnavailable)
	}
	_ = json.NewEncoder(w).Encode(h) // If it fails, the client is gone.
}
