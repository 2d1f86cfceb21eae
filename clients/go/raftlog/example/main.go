// The storage of a Raft node over one log: `go run raftlog/example FOLDER`. It saves two entries and the node's state, reads the
// entries, drops those that a snapshot has, and purges.
package main

import (
	"fmt"
	"log"
	"os"

	"raftlog"
)

// A node applies the entry to its state here.
func apply(group uint64, entry raftlog.Entry) {
	fmt.Printf("group %d, entry %d: %s\n", group, entry.Index, entry.Data)
}

// A node saves the group's state in a file of its own here, syncs it, and returns the last index in it. This example has no
// state: it keeps all entries.
func makeSnapshot(group uint64) uint64 { return 0 }

func turn(engine *raftlog.Engine, group, last uint64) error {
	entries := []raftlog.Entry{{Index: last + 1, Data: []byte("one")}, {Index: last + 2, Data: []byte("two")}}
	applied, committed, snapshot := last, last+2, last
	var batch raftlog.Batch
	batch.AddEntries(group, entries)                      // append, or replace a tail
	batch.Put(group, []byte("state"), []byte("follower")) // the term and the vote
	if err := engine.Write(&batch, true); err != nil {    // durable: now answer the leader
		return err
	}

	ready, err := engine.FetchEntries(group, applied+1, committed+1, 1<<20)
	if err != nil {
		return err
	}
	for _, entry := range ready {
		apply(group, entry)
	}

	if _, err := engine.CompactTo(group, snapshot+1); err != nil { // drop what the snapshot has
		return err
	}

	old, err := engine.PurgeInShortCalls(1 << 20) // now and then: free log files
	if err != nil {
		return err
	}
	for _, group := range old { // groups that keep old files
		if _, err := engine.CompactTo(group, makeSnapshot(group)+1); err != nil {
			return err
		}
	}
	return nil
}

func run(folder string) error {
	engine, err := raftlog.Open(folder, "")
	if err != nil {
		return err
	}
	_, last, _, err := engine.Span(1)
	if err == nil {
		err = turn(engine, 1, last)
	}
	if closed := engine.Close(); err == nil {
		err = closed
	}
	return err
}

func main() {
	folder := "example-log"
	if len(os.Args) > 1 {
		folder = os.Args[1]
	}
	if err := run(folder); err != nil {
		log.Fatal(err)
	}
}
