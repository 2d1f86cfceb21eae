package main

import (
	"bytes"
	"fmt"
	"math"

	"kv/cluster"
	"kv/machine"
	"kv/storage/raftlogstore"

	"go.etcd.io/etcd/raft"
	pb "go.etcd.io/etcd/raft/raftpb"
)

// A kept is what a stopped node has of a group.
type kept struct {
	commit  uint64
	entries []pb.Entry
	// The state after all committed entries.
	state []byte
}

// compareLogs reads what the stopped nodes have, and checks that each group's committed entries are
// equal where two nodes have them, and that their states are.
func compareLogs(c *cluster.Cluster, groups uint64) error {
	var nodes [cluster.Size][]kept
	for i := range nodes {
		all, err := readLog(c.LogFolder(i), groups)
		if err != nil {
			return fmt.Errorf("the log of node %d: %w", i+1, err)
		}
		nodes[i] = all
	}
	compared, committed := 0, uint64(0)
	for g := range nodes[0] {
		committed += nodes[0][g].commit
		for i := 1; i < cluster.Size; i++ {
			count, err := compare(nodes[0][g], nodes[i][g])
			if err != nil {
				return fmt.Errorf("group %d of nodes 1 and %d: %w", g+1, i+1, err)
			}
			compared += count
		}
	}
	fmt.Printf("the nodes' logs and states are equal: %d committed entries, %d still kept twice\n",
		committed, compared)
	return nil
}

func readLog(folder string, groups uint64) (all []kept, err error) {
	store, err := raftlogstore.Open(folder, "")
	if err != nil {
		return nil, err
	}
	defer store.Close()
	for g := uint64(1); g <= groups; g++ {
		group, err := store.Group(g)
		if err != nil {
			return nil, err
		}
		one, err := readGroup(group)
		if err != nil {
			return nil, fmt.Errorf("group %d: %w", g, err)
		}
		all = append(all, one)
	}
	return
}

func readGroup(group raft.Storage) (k kept, err error) {
	state, _, err := group.InitialState()
	if err != nil {
		return
	}
	snapshot, err := group.Snapshot()
	if err != nil {
		return
	}
	first, _ := group.FirstIndex()
	k.commit = state.Commit
	if k.entries, err = group.Entries(first, k.commit+1, math.MaxUint64); err != nil {
		return
	}
	m, err := machine.Restore(snapshot.Data)
	if err != nil {
		return
	}
	for _, entry := range k.entries {
		if entry.Index <= snapshot.Metadata.Index || len(entry.Data) == 0 {
			continue
		}
		command, err := machine.Decode(entry.Data)
		if err != nil {
			return k, err
		}
		m.Apply(entry.Index, command)
	}
	k.state = m.Snapshot()
	return
}

// compare answers how many entries both have.
func compare(a, b kept) (count int, err error) {
	if a.commit != b.commit {
		return 0, fmt.Errorf("%d and %d entries are committed", a.commit, b.commit)
	}
	if !bytes.Equal(a.state, b.state) {
		return 0, fmt.Errorf("the states after entry %d differ", a.commit)
	}
	count = len(a.entries)
	if len(b.entries) < count {
		count = len(b.entries)
	}
	for i := 1; i <= count; i++ {
		one, other := &a.entries[len(a.entries)-i], &b.entries[len(b.entries)-i]
		if one.String() != other.String() {
			return 0, fmt.Errorf("the entries %d differ", one.Index)
		}
	}
	return count, nil
}
