// Package boltstore keeps all groups of a node in one bbolt database: a bucket for each group, one
// transaction for all groups of a round. Entries are in memory too. For comparison.
package boltstore

import (
	"encoding/binary"
	"os"
	"path/filepath"

	"kv/storage"

	"go.etcd.io/bbolt"
	"go.etcd.io/etcd/raft"
	pb "go.etcd.io/etcd/raft/raftpb"
)

var (
	identityBucket = []byte("identity")
	stateKey       = []byte("hard-state")
	snapshotKey    = []byte("last-snapshot")
)

// Keys of entries are eight bytes, which none of the keys above is.
const entryKeySize = 8

type store struct {
	db     *bbolt.DB
	groups map[uint64]*raft.MemoryStorage
}

// Open opens the database in a folder, which is made where it is missing.
func Open(folder string) (storage.Store, error) {
	if err := os.MkdirAll(folder, 0777); err != nil {
		return nil, err
	}
	options := &bbolt.Options{NoFreelistSync: true, FreelistType: bbolt.FreelistMapType}
	db, err := bbolt.Open(filepath.Join(folder, "bolt.db"), 0666, options)
	if err != nil {
		return nil, err
	}
	return &store{db, map[uint64]*raft.MemoryStorage{}}, nil
}

func (s *store) Identity() (identity []byte, err error) {
	err = s.db.View(func(tx *bbolt.Tx) error {
		if bucket := tx.Bucket(identityBucket); bucket != nil {
			identity = append(identity, bucket.Get(identityBucket)...)
		}
		return nil
	})
	return
}

func (s *store) SetIdentity(identity []byte) error {
	return s.db.Update(func(tx *bbolt.Tx) error {
		bucket, err := tx.CreateBucketIfNotExists(identityBucket)
		if err != nil {
			return err
		}
		return bucket.Put(identityBucket, identity)
	})
}

func number(n uint64) []byte {
	var key [entryKeySize]byte
	binary.BigEndian.PutUint64(key[:], n)
	return key[:]
}

func (s *store) Group(group uint64) (raft.Storage, error) {
	memory := raft.NewMemoryStorage()
	s.groups[group] = memory
	err := s.db.Update(func(tx *bbolt.Tx) error {
		bucket, err := tx.CreateBucketIfNotExists(number(group))
		if err != nil {
			return err
		}
		return load(bucket, memory)
	})
	return memory, err
}

func load(bucket *bbolt.Bucket, memory *raft.MemoryStorage) error {
	var snapshot pb.Snapshot
	var state pb.HardState
	if err := snapshot.Unmarshal(bucket.Get(snapshotKey)); err != nil {
		return err
	}
	if err := state.Unmarshal(bucket.Get(stateKey)); err != nil {
		return err
	}
	if !raft.IsEmptySnap(snapshot) {
		if err := memory.ApplySnapshot(snapshot); err != nil {
			return err
		}
	}
	var entries []pb.Entry
	err := bucket.ForEach(func(key, value []byte) error {
		if len(key) != entryKeySize {
			return nil
		}
		var entry pb.Entry
		err := entry.Unmarshal(append([]byte(nil), value...))
		if entry.Index > snapshot.Metadata.Index {
			entries = append(entries, entry)
		}
		return err
	})
	if err != nil {
		return err
	}
	if err := memory.Append(entries); err != nil {
		return err
	}
	return memory.SetHardState(state)
}

type marshaler interface{ Marshal() ([]byte, error) }

func put(bucket *bbolt.Bucket, key []byte, what marshaler) error {
	data, err := what.Marshal()
	if err != nil {
		return err
	}
	return bucket.Put(key, data)
}

func write(bucket *bbolt.Bucket, c *storage.Change) error {
	if !raft.IsEmptySnap(c.Snapshot) {
		if err := put(bucket, snapshotKey, &c.Snapshot); err != nil {
			return err
		}
	}
	if !raft.IsEmptyHardState(c.State) {
		if err := put(bucket, stateKey, &c.State); err != nil {
			return err
		}
	}
	for i := range c.Entries {
		if err := put(bucket, number(c.Entries[i].Index), &c.Entries[i]); err != nil {
			return err
		}
	}
	if !raft.IsEmptySnap(c.Snapshot) {
		return drop(bucket, 0, c.Snapshot.Metadata.Index+1)
	}
	if len(c.Entries) > 0 {
		return drop(bucket, c.Entries[len(c.Entries)-1].Index+1, 0)
	}
	return nil
}

// drop deletes the entries from an index to the one before another; 0 is no end.
func drop(bucket *bbolt.Bucket, first, end uint64) error {
	cursor := bucket.Cursor()
	key, _ := cursor.Seek(number(first))
	for len(key) == entryKeySize && (end == 0 || binary.BigEndian.Uint64(key) < end) {
		if err := cursor.Delete(); err != nil {
			return err
		}
		key, _ = cursor.Seek(number(first))
	}
	return nil
}

func (s *store) Save(changes []storage.Change) error {
	err := s.db.Update(func(tx *bbolt.Tx) error {
		for i := range changes {
			if err := write(tx.Bucket(number(changes[i].Group)), &changes[i]); err != nil {
				return err
			}
		}
		return nil
	})
	if err != nil {
		return err
	}
	for _, c := range changes {
		memory := s.groups[c.Group]
		if !raft.IsEmptySnap(c.Snapshot) {
			if err := memory.ApplySnapshot(c.Snapshot); err != nil {
				return err
			}
		}
		if !raft.IsEmptyHardState(c.State) {
			if err := memory.SetHardState(c.State); err != nil {
				return err
			}
		}
		if err := memory.Append(c.Entries); err != nil {
			return err
		}
	}
	return nil
}

func (s *store) Compact(c storage.Compaction) error {
	memory, metadata := s.groups[c.Group], c.Snapshot.Metadata
	_, err := memory.CreateSnapshot(metadata.Index, &metadata.ConfState, c.Snapshot.Data)
	if err != nil {
		return err
	}
	err = s.db.Update(func(tx *bbolt.Tx) error {
		bucket := tx.Bucket(number(c.Group))
		if err := put(bucket, snapshotKey, &c.Snapshot); err != nil {
			return err
		}
		return drop(bucket, 0, c.First)
	})
	if err != nil {
		return err
	}
	if err := memory.Compact(c.First - 1); err != nil && err != raft.ErrCompacted {
		return err
	}
	return nil
}

// Purge does nothing: bbolt uses freed pages again.
func (s *store) Purge() ([]uint64, error) { return nil, nil }

func (s *store) Close() error { return s.db.Close() }
