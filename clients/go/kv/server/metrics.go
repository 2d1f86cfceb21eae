package server

import (
	"bytes"
	"context"
	"fmt"
	"net/http"
	"strconv"

	"kv/node"
	"raftlog"
)

// Log is the log of a node's store, if it counts what it does.
type Log interface {
	Stats() (raftlog.Stats, error)
}

// tellMetrics answers in the text format of Prometheus.
func (s *Server) tellMetrics(ctx context.Context, w http.ResponseWriter) error {
	status, err := s.Node.Status(ctx)
	if err != nil {
		return err
	}
	var page page
	page.addNode(status)
	if s.Log != nil {
		stats, err := s.Log.Stats()
		if err != nil {
			return err
		}
		page.addLog(stats)
	}
	w.Header().Set("Content-Type", "text/plain; version=0.0.4; charset=utf-8")
	_, err = w.Write(page.Bytes())
	return ignored(err)
}

// A page is the text of metrics, each after its help and its type.
type page struct{ bytes.Buffer }

func (p *page) begin(name, kind, help string) {
	fmt.Fprintf(p, "# HELP %s %s\n# TYPE %s %s\n", name, help, name, kind)
}

func (p *page) add(name, kind, help string, value float64) {
	p.begin(name, kind, help)
	fmt.Fprintf(p, "%s %s\n", name, text(value))
}

func text(value float64) string { return strconv.FormatFloat(value, 'g', -1, 64) }

func (p *page) counter(name, help string, value uint64) { p.add(name, "counter", help, float64(value)) }

func (p *page) addNode(status node.Status) {
	stats := status.Stats
	p.counter("kv_rounds_total", "Rounds that wrote something.", stats.Rounds)
	p.counter("kv_round_syncs_total", "Rounds that were synced.", stats.Syncs)
	p.counter("kv_changes_total", "Changes of groups in these rounds.", stats.Changes)
	p.counter("kv_synced_changes_total", "Changes that had to be synced.", stats.Synced)
	p.counter("kv_applied_total", "Entries that were applied.", stats.Applied)
	p.counter("kv_reads_total", "Reads that were answered.", stats.Reads)
	p.counter("kv_snapshots_total", "Snapshots of groups that were made.", stats.Snapshots)
	p.counter("kv_purges_total", "Purges of the log.", stats.Purges)
	for _, gauge := range []struct {
		name, help string
		of         func(g node.GroupStatus) uint64
	}{
		{"kv_group_leader", "The node that leads the group, 0 if none is known.", func(g node.GroupStatus) uint64 { return g.Leader }},
		{"kv_group_term", "The term of the group.", func(g node.GroupStatus) uint64 { return g.Term }},
		{"kv_group_commit", "The index of the last committed entry.", func(g node.GroupStatus) uint64 { return g.Commit }},
		{"kv_group_applied", "The index of the last applied entry.", func(g node.GroupStatus) uint64 { return g.Applied }},
		{"kv_group_first", "The index of the first entry in the log.", func(g node.GroupStatus) uint64 { return g.First }},
		{"kv_group_last", "The index of the last entry in the log.", func(g node.GroupStatus) uint64 { return g.Last }},
		{"kv_group_keys", "Keys with a value.", func(g node.GroupStatus) uint64 { return uint64(g.Keys) }},
		{"kv_group_bytes", "Bytes of keys and values.", func(g node.GroupStatus) uint64 { return g.Bytes }},
	} {
		p.begin(gauge.name, "gauge", gauge.help)
		for _, g := range status.Groups {
			fmt.Fprintf(p, "%s{group=\"%d\"} %d\n", gauge.name, g.Group, gauge.of(g))
		}
	}
}

func (p *page) addLog(stats raftlog.Stats) {
	p.counter("raftlog_rounds_total", "Rounds of changes.", stats.Rounds)
	p.counter("raftlog_changes_total", "Writes, syncs, compactions and purges.", stats.Changes)
	p.counter("raftlog_synced_changes_total", "Changes that asked for a sync.", stats.SyncedChanges)
	p.counter("raftlog_batches_total", "Batches that were written.", stats.Batches)
	p.counter("raftlog_written_bytes_total", "Bytes that were written to log files.", stats.Bytes)
	p.counter("raftlog_writes_total", "Calls of the system that wrote them.", stats.Writes)
	p.addSyncs(stats)
	p.counter("raftlog_next_files_total", "Files that a queue went on to.", stats.NextFiles)
	p.counter("raftlog_recycled_files_total", "Next files that were made of dropped or reserved ones.", stats.RecycledFiles)
	p.counter("raftlog_deleted_files_total", "Log files that were deleted.", stats.DeletedFiles)
	p.counter("raftlog_purges_total", "Purges that were carried out.", stats.Purges)
	p.add("raftlog_purge_seconds_total", "counter", "Time of these purges.", stats.PurgeTime.Seconds())
	p.add("raftlog_longest_purge_seconds", "gauge", "Time of the longest purge.", stats.LongestPurge.Seconds())
	p.add("raftlog_files", "gauge", "Files that the log's folder has.", float64(stats.Files))
	p.add("raftlog_index_bytes", "gauge", "Memory of the index, without keys and values.", float64(stats.IndexBytes))
	p.counter("raftlog_block_hits_total", "Reads of an entry whose block was kept.", stats.BlockHits)
	p.counter("raftlog_block_misses_total", "Reads of an entry that had to read its block.", stats.BlockMisses)
	p.add("raftlog_largest_round_changes", "gauge", "The most changes of a round.", float64(stats.LargestRound))
}

// addSyncs adds the histogram of sync times; the last class has no bound of its own.
func (p *page) addSyncs(stats raftlog.Stats) {
	const name = "raftlog_sync_seconds"
	p.begin(name, "histogram", "Times of syncs of log files.")
	under := uint64(0)
	for class, count := range stats.SyncTimes {
		under += count
		bound := "+Inf"
		if class < raftlog.SyncClasses-1 {
			bound = text(raftlog.SyncBound(class).Seconds())
		}
		fmt.Fprintf(p, "%s_bucket{le=\"%s\"} %d\n", name, bound, under)
	}
	fmt.Fprintf(p, "%s_sum %s\n%s_count %d\n", name, text(stats.SyncTime.Seconds()), name, under)
	p.add("raftlog_longest_sync_seconds", "gauge", "Time of the longest sync.", stats.LongestSync.Seconds())
}
