package server

import (
	"bufio"
	"fmt"
	"net/http"
	"regexp"
	"strconv"
	"strings"
	"testing"
)

var (
	about  = regexp.MustCompile(`^# (HELP [a-z_]+ [A-Z].*\.|TYPE [a-z_]+ (counter|gauge|histogram))$`)
	sample = regexp.MustCompile(`^([a-z_]+)(\{(?:group|le)="([^"]+)"\})? ([0-9.e+-]+)$`)
)

// metricsOf reads the samples of a node by their names and labels, and checks each line of the page.
func metricsOf(t *testing.T, address string) map[string]float64 {
	response, err := http.Get(address + "/metrics")
	if err != nil {
		t.Fatal(err)
	}
	defer response.Body.Close()
	if kind := response.Header.Get("Content-Type"); !strings.HasPrefix(kind, "text/plain; version=0.0.4") {
		t.Error(kind)
	}
	samples, typed := map[string]float64{}, map[string]bool{}
	for lines := bufio.NewScanner(response.Body); lines.Scan(); {
		line := lines.Text()
		if about.MatchString(line) {
			typed[strings.Fields(line)[2]] = true
			continue
		}
		parts := sample.FindStringSubmatch(line)
		if parts == nil {
			t.Errorf("no line of the format: %s", line)
			continue
		}
		family := parts[1]
		for _, end := range []string{"_bucket", "_sum", "_count"} {
			if base := strings.TrimSuffix(family, end); base != family && typed[base] {
				family = base
			}
		}
		if !typed[family] {
			t.Errorf("no type: %s", line)
		}
		value, err := strconv.ParseFloat(parts[4], 64)
		if err != nil {
			t.Error(err)
		}
		if _, twice := samples[parts[1]+parts[2]]; twice {
			t.Errorf("twice: %s", line)
		}
		samples[parts[1]+parts[2]] = value
	}
	return samples
}

func TestMetrics(t *testing.T) {
	address := start(t).URL
	c := caller{address: address}
	for i := 0; i < 20; i++ {
		if said, err := c.call(fmt.Sprintf("PUT /keys/%s < value", keyIn(1))); err != nil || said != "204" {
			t.Fatal(said, err)
		}
	}
	samples := metricsOf(t, address)
	for name, least := range map[string]float64{
		"kv_rounds_total": 20, "kv_applied_total": 20, `kv_group_commit{group="1"}`: 20, `kv_group_keys{group="1"}`: 1,
		`kv_group_leader{group="2"}`: 1, `kv_group_term{group="2"}`: 1, "kv_snapshots_total": 1,
		"raftlog_batches_total": 20, "raftlog_sync_seconds_count": 20, "raftlog_written_bytes_total": 1000,
		"raftlog_files": 1, "raftlog_next_files_total": 0, "raftlog_purges_total": 0,
		"raftlog_index_bytes": 40 * 20, "raftlog_block_hits_total": 0, "raftlog_block_misses_total": 0,
	} {
		if value, found := samples[name]; !found || value < least {
			t.Errorf("%s is %v, %v", name, value, found)
		}
	}
	before := 0.0
	for class := 0; class < 23; class++ {
		name := fmt.Sprintf(`raftlog_sync_seconds_bucket{le="%v"}`, float64(uint64(1)<<class)/1e6)
		count, found := samples[name]
		if !found || count < before {
			t.Errorf("%s is %v, after %v", name, count, before)
		}
		before = count
	}
	if all := samples[`raftlog_sync_seconds_bucket{le="+Inf"}`]; all != samples["raftlog_sync_seconds_count"] || all < before {
		t.Errorf("%v syncs", all)
	}
	if samples["raftlog_sync_seconds_sum"] < samples["raftlog_longest_sync_seconds"] {
		t.Error("the longest sync is longer than all")
	}
}
