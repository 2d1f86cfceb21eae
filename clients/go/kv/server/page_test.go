package server

import (
	"encoding/json"
	"io"
	"net/http"
	"regexp"
	"strings"
	"testing"
)

func get(t *testing.T, url string) (http.Header, string) {
	t.Helper()
	response, err := http.Get(url)
	if err != nil {
		t.Fatal(err)
	}
	defer response.Body.Close()
	text, err := io.ReadAll(response.Body)
	if err != nil || response.StatusCode != http.StatusOK {
		t.Fatal(url, response.Status, err)
	}
	return response.Header, string(text)
}

// The page, and each file that it names.
func TestPage(t *testing.T) {
	address := start(t).URL
	header, page := get(t, address+"/")
	if kind := header.Get("Content-Type"); !strings.HasPrefix(kind, "text/html") {
		t.Error(kind)
	}
	kinds := map[string]string{"page.css": "text/css", "nodes.js": "text/javascript", "draw.js": "text/javascript",
		"status": "application/json", "metrics": "text/plain"}
	for _, named := range regexp.MustCompile(`(?:src|href)="([a-z.]+)"`).FindAllStringSubmatch(page, -1) {
		header, text := get(t, address+"/"+named[1])
		if kind := header.Get("Content-Type"); text == "" || !strings.HasPrefix(kind, kinds[named[1]]) {
			t.Errorf("%s is %s, %d bytes", named[1], kind, len(text))
		}
		delete(kinds, named[1])
	}
	if len(kinds) > 0 {
		t.Errorf("the page doesn't name %v", kinds)
	}
}

// What the page draws, which the pages of other nodes may read too.
func TestStatus(t *testing.T) {
	address := start(t).URL
	for i := 0; i < 10; i++ {
		if said, err := (caller{address: address}).call("PUT /keys/" + keyIn(2) + " < value"); err != nil || said != "204" {
			t.Fatal(said, err)
		}
	}
	header, text := get(t, address+"/status")
	if origin := header.Get("Access-Control-Allow-Origin"); origin != "*" {
		t.Error(origin)
	}
	var told status
	if err := json.Unmarshal([]byte(text), &told); err != nil {
		t.Fatal(err)
	}
	if len(told.Nodes) != 1 || told.Nodes[0] != (Address{1, "one:1"}) || told.Node != 1 || len(told.Groups) != groups {
		t.Errorf("%+v", told)
	}
	if group := told.Groups[1]; group.Group != 2 || group.Leader != 1 || group.Term == 0 || group.Commit < 10 || group.Keys != 1 {
		t.Errorf("%+v", group)
	}
	log, all := told.Log, uint64(0)
	for _, count := range log.SyncTimes {
		all += count
	}
	if log.Syncs < 10 || all != log.Syncs || log.SyncSeconds < log.LongestSyncSeconds || log.LongestSyncSeconds <= 0 {
		t.Errorf("%+v", log)
	}
	if len(log.SyncBounds)+1 != len(log.SyncTimes) || log.SyncBounds[10] != 1024e-6 || log.Files == 0 || log.WrittenBytes < 500 {
		t.Errorf("%+v", log)
	}
}
