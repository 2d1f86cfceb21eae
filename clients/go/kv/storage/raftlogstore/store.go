// Package raftlogstore keeps all groups of a node in one raftlog: one stream of log files, one
// batch and at most one sync for all groups of a round.
package raftlogstore

import (
	"fmt"

	"etcdstorage"
	"kv/storage"
	"raftlog"

	"go.etcd.io/etcd/raft"
)

// Settings keeps the log small, since all of it is in memory too.
const Settings = `target-file-size = "8MB"
purge-threshold = "64MB"
`

// A call of a purge writes at most so many bytes. The node saves between two calls.
const purgeBudget = 1 << 20

// The group of the identity; those of the store's users begin with 1.
const identityGroup = 0

var identityKey = []byte("identity")

type store struct {
	log    *raftlog.Engine
	groups map[uint64]*etcdstorage.Storage
}

// Open opens the log in a folder, by settings in TOML; a missing folder is made.
func Open(folder, settings string) (storage.Store, error) {
	log, err := raftlog.Open(folder, settings)
	if err != nil {
		return nil, fmt.Errorf("the log in %s can't be opened: %w", folder, err)
	}
	return &store{log, map[uint64]*etcdstorage.Storage{}}, nil
}

func (s *store) Identity() ([]byte, error) {
	identity, _, err := s.log.Get(identityGroup, identityKey)
	return identity, err
}

func (s *store) SetIdentity(identity []byte) error {
	var batch raftlog.Batch
	batch.Put(identityGroup, identityKey, identity)
	return s.log.Write(&batch, true)
}

func (s *store) Group(group uint64) (raft.Storage, error) {
	opened, err := etcdstorage.New(s.log, group)
	s.groups[group] = opened
	return opened, err
}

func (s *store) Save(changes []storage.Change) error {
	list := make([]etcdstorage.Change, len(changes))
	for i, c := range changes {
		list[i] = etcdstorage.Change{
			Storage:  s.groups[c.Group],
			State:    c.State,
			Entries:  c.Entries,
			Snapshot: c.Snapshot,
		}
	}
	return etcdstorage.SaveAll(s.log, list, storage.MustSync(changes) > 0)
}

func (s *store) Compact(c storage.Compaction) error {
	metadata := c.Snapshot.Metadata
	group := s.groups[c.Group]
	return group.CompactKeeping(metadata.Index, c.First, metadata.ConfState, c.Snapshot.Data)
}

func (s *store) Purge() ([]uint64, error) { return s.log.PurgeInShortCalls(purgeBudget) }

// Stats returns what the log has done since it was opened.
func (s *store) Stats() (raftlog.Stats, error) { return s.log.Stats() }

func (s *store) Close() error { return s.log.Close() }
