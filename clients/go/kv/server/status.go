package server

import (
	"context"
	"encoding/json"
	"net/http"

	"kv/node"
	"raftlog"
)

// An Address is where a node answers HTTP.
type Address struct {
	Node uint64 `json:"node"`
	HTTP string `json:"http"`
}

// A status is what /status answers: how the node is, where the nodes answer HTTP, and what the log counts.
type status struct {
	node.Status
	Nodes []Address  `json:"nodes"`
	Log   *logStatus `json:"log,omitempty"`
}

// A logStatus is what the log of a node counts. SyncTimes are its syncs by classes of their times; each class has those under
// its bound, in seconds, and not under the one before, and the last class has no bound.
type logStatus struct {
	Batches            uint64    `json:"batches"`
	WrittenBytes       uint64    `json:"written_bytes"`
	Files              uint64    `json:"files"`
	Purges             uint64    `json:"purges"`
	IndexBytes         uint64    `json:"index_bytes"`
	BlockHits          uint64    `json:"block_hits"`
	BlockMisses        uint64    `json:"block_misses"`
	Syncs              uint64    `json:"syncs"`
	SyncSeconds        float64   `json:"sync_seconds"`
	LongestSyncSeconds float64   `json:"longest_sync_seconds"`
	SyncTimes          []uint64  `json:"sync_times"`
	SyncBounds         []float64 `json:"sync_bounds"`
}

func logStatusOf(stats raftlog.Stats) *logStatus {
	told := &logStatus{
		Batches:            stats.Batches,
		WrittenBytes:       stats.Bytes,
		Files:              stats.Files,
		Purges:             stats.Purges,
		IndexBytes:         stats.IndexBytes,
		BlockHits:          stats.BlockHits,
		BlockMisses:        stats.BlockMisses,
		Syncs:              stats.Syncs,
		SyncSeconds:        stats.SyncTime.Seconds(),
		LongestSyncSeconds: stats.LongestSync.Seconds(),
		SyncTimes:          stats.SyncTimes[:],
	}
	for class := 0; class < raftlog.SyncClasses-1; class++ {
		told.SyncBounds = append(told.SyncBounds, raftlog.SyncBound(class).Seconds())
	}
	return told
}

// tellStatus answers as JSON. Pages of the other nodes may read it too.
func (s *Server) tellStatus(ctx context.Context, w http.ResponseWriter) error {
	own, err := s.Node.Status(ctx)
	if err != nil {
		return err
	}
	told := status{Status: own, Nodes: s.Nodes}
	if s.Log != nil {
		stats, err := s.Log.Stats()
		if err != nil {
			return err
		}
		told.Log = logStatusOf(stats)
	}
	w.Header().Set("Access-Control-Allow-Origin", "*")
	w.Header().Set("Content-Type", "application/json")
	encoder := json.NewEncoder(w)
	encoder.SetIndent("", "  ")
	return ignored(encoder.Encode(told))
}
