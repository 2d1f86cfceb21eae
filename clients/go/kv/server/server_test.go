package server

import (
	"bufio"
	"context"
	"fmt"
	"io"
	"net/http"
	"net/http/httptest"
	"os"
	"strings"
	"testing"
	"time"

	"kv/node"
	"kv/storage/raftlogstore"
)

const groups = 2

// One node that is a majority by itself.
func start(t *testing.T) *httptest.Server {
	store, err := raftlogstore.Open(t.TempDir(), "")
	if err != nil {
		t.Fatal(err)
	}
	n, err := node.New(node.Config{
		ID:              1,
		Peers:           map[uint64]string{1: ""},
		Groups:          groups,
		SnapshotEntries: 5,
		PurgeEvery:      time.Hour,
	}, store)
	if err != nil {
		t.Fatal(err)
	}
	ctx, cancel := context.WithCancel(context.Background())
	ended := make(chan error)
	go func() { ended <- n.Run(ctx) }()
	log, _ := store.(Log)
	users := httptest.NewServer(&Server{Node: n, Log: log, Nodes: []Address{{1, "one:1"}}, Groups: groups, Timeout: 2 * time.Minute})
	t.Cleanup(func() {
		users.Close()
		cancel()
		if err := <-ended; err != nil {
			t.Error(err)
		}
		if err := store.Close(); err != nil {
			t.Error(err)
		}
	})
	return users
}

// keyIn finds a key of a group.
func keyIn(group uint64) string {
	for i := 0; ; i++ {
		if key := fmt.Sprint("in", i); node.Group(key, groups) == group {
			return key
		}
	}
}

func TestCalls(t *testing.T) {
	file, err := os.Open("testdata/calls")
	if err != nil {
		t.Fatal(err)
	}
	defer file.Close()
	c := caller{address: start(t).URL, words: map[string]string{
		"IN1":      keyIn(1),
		"IN2":      keyIn(2),
		"LONGEST":  strings.Repeat("k", maxKey),
		"TOOLONG":  strings.Repeat("k", maxKey+1),
		"LARGEST":  strings.Repeat("v", maxValue),
		"TOOLARGE": strings.Repeat("v", maxValue+1),
	}}
	count := 0
	for lines := bufio.NewScanner(file); lines.Scan(); {
		line := lines.Text()
		if line == "" || line[0] == '#' {
			continue
		}
		count++
		sides := strings.SplitN(line, " -> ", 2)
		said, err := c.call(sides[0])
		if sides[1] == "200 SESSION" {
			c.words["SESSION"] = strings.TrimPrefix(said, "200 ")
			continue
		}
		if err != nil || !strings.HasPrefix(said, sides[1]) {
			t.Errorf("%s: %.80s, %v", line, said, err)
		}
	}
	if count < 40 {
		t.Errorf("%d lines", count)
	}
}

type caller struct {
	address string
	// What stands for something longer in the lines.
	words map[string]string
}

func (c caller) call(line string) (said string, err error) {
	for word, meaning := range c.words {
		line = strings.ReplaceAll(line, word, meaning)
	}
	body := ""
	if at := strings.Index(line, " < "); at >= 0 {
		line, body = line[:at], line[at+3:]
	}
	words := strings.Fields(line)
	r, err := http.NewRequest(words[0], c.address, strings.NewReader(body))
	if err != nil {
		return
	}
	// As it stands, without the cleaning of a URL.
	path := strings.SplitN(words[1], "?", 2)
	r.URL.Opaque = "//" + r.URL.Host + path[0]
	if len(path) == 2 {
		r.URL.RawQuery = path[1]
	}
	for _, header := range words[2:] {
		parts := strings.SplitN(header, "=", 2)
		r.Header.Set(parts[0], parts[1])
	}
	response, err := http.DefaultTransport.RoundTrip(r)
	if err != nil {
		return
	}
	defer response.Body.Close()
	text, err := io.ReadAll(response.Body)
	return strings.TrimSpace(fmt.Sprintf("%d %s", response.StatusCode, text)), err
}
