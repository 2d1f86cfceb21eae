// Package storage keeps the Raft state of a node's groups.
package storage

import (
	"go.etcd.io/etcd/raft"
	pb "go.etcd.io/etcd/raft/raftpb"
)

// A Change has what a Ready of a group asks to save.
type Change struct {
	Group    uint64
	State    pb.HardState
	Entries  []pb.Entry
	Snapshot pb.Snapshot
	MustSync bool
}

// A Compaction is a snapshot of a group, and the first entry that is kept beside it.
type Compaction struct {
	Group    uint64
	Snapshot pb.Snapshot
	First    uint64
}

// A Store keeps the Raft state of many groups. After an error of Save, Compact or Purge nothing
// more is written: the node stops, and what was kept before is found when it is opened again.
type Store interface {
	// Identity returns what SetIdentity kept, or nothing in a new store.
	Identity() ([]byte, error)
	// SetIdentity keeps bytes that tell whose store this is, with a sync.
	SetIdentity(identity []byte) error
	// Group returns the storage of a group; a new group begins empty.
	Group(group uint64) (raft.Storage, error)
	// Save keeps the changes of a round, each group's whole or not at all, and syncs if one of them
	// must be synced. A group has at most one change.
	Save(changes []Change) error
	// Compact keeps a snapshot at an entry that was applied, and drops entries.
	Compact(c Compaction) error
	// Purge frees the space of what was dropped. Other calls may run meanwhile. It returns the
	// groups whose old entries keep space from being freed.
	Purge() ([]uint64, error)
	// Close syncs and closes.
	Close() error
}

// MustSync counts the changes that must be synced.
func MustSync(changes []Change) (count uint64) {
	for i := range changes {
		if changes[i].MustSync {
			count++
		}
	}
	return
}
