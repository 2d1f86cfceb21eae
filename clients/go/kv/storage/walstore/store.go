// Package walstore keeps each group in a write-ahead log of etcd's, with entries in memory as etcd
// has them. The logs of a round's groups are synced beside each other. For comparison.
package walstore

import (
	"fmt"
	"os"
	"path/filepath"
	"sync"

	"kv/storage"

	"go.etcd.io/etcd/etcdserver/api/snap"
	"go.etcd.io/etcd/raft"
	pb "go.etcd.io/etcd/raft/raftpb"
	"go.etcd.io/etcd/wal"
	"go.etcd.io/etcd/wal/walpb"
	"go.uber.org/zap"
)

type group struct {
	log       *wal.WAL
	snapshots *snap.Snapshotter
	memory    *raft.MemoryStorage
}

type store struct {
	folder string
	groups map[uint64]*group
}

// Open opens the logs in a folder, which is made where it is missing.
func Open(folder string) (storage.Store, error) {
	return &store{folder, map[uint64]*group{}}, os.MkdirAll(folder, 0777)
}

func (s *store) identityFile() string { return filepath.Join(s.folder, "identity") }

func (s *store) Identity() ([]byte, error) {
	identity, err := os.ReadFile(s.identityFile())
	if os.IsNotExist(err) {
		return nil, nil
	}
	return identity, err
}

func (s *store) SetIdentity(identity []byte) error {
	file, err := os.Create(s.identityFile())
	if err != nil {
		return err
	}
	defer file.Close()
	if _, err := file.Write(identity); err != nil {
		return err
	}
	return file.Sync()
}

func (s *store) Group(number uint64) (raft.Storage, error) {
	g, err := open(filepath.Join(s.folder, fmt.Sprint("group-", number)))
	if err != nil {
		return nil, err
	}
	s.groups[number] = g
	return g.memory, nil
}

func open(folder string) (*group, error) {
	logger := zap.NewNop()
	logs, snapshots := filepath.Join(folder, "wal"), filepath.Join(folder, "snap")
	if err := os.MkdirAll(snapshots, 0777); err != nil {
		return nil, err
	}
	g := &group{snapshots: snap.New(logger, snapshots), memory: raft.NewMemoryStorage()}
	if !wal.Exist(logs) {
		log, err := wal.Create(logger, logs, nil)
		g.log = log
		return g, err
	}
	kept, err := wal.ValidSnapshotEntries(logger, logs)
	if err != nil {
		return nil, err
	}
	snapshot, err := g.snapshots.LoadNewestAvailable(kept)
	if err != nil && err != snap.ErrNoSnapshot {
		return nil, err
	}
	var from walpb.Snapshot
	if snapshot != nil {
		from = walpb.Snapshot{Index: snapshot.Metadata.Index, Term: snapshot.Metadata.Term}
		if err := g.memory.ApplySnapshot(*snapshot); err != nil {
			return nil, err
		}
	}
	if g.log, err = wal.Open(logger, logs, from); err != nil {
		return nil, err
	}
	_, state, entries, err := g.log.ReadAll()
	if err == nil {
		err = g.memory.SetHardState(state)
	}
	if err == nil {
		err = g.memory.Append(entries)
	}
	return g, err
}

// save keeps a change as etcd's server does: a snapshot is written before the log tells of it.
func (g *group) save(c storage.Change) error {
	if !raft.IsEmptySnap(c.Snapshot) {
		if err := g.keep(c.Snapshot); err != nil {
			return err
		}
		if err := g.memory.ApplySnapshot(c.Snapshot); err != nil {
			return err
		}
	}
	if err := g.log.Save(c.State, c.Entries); err != nil {
		return err
	}
	if !raft.IsEmptyHardState(c.State) {
		if err := g.memory.SetHardState(c.State); err != nil {
			return err
		}
	}
	return g.memory.Append(c.Entries)
}

func (g *group) keep(snapshot pb.Snapshot) error {
	if err := g.snapshots.SaveSnap(snapshot); err != nil {
		return err
	}
	metadata := snapshot.Metadata
	kept := walpb.Snapshot{Index: metadata.Index, Term: metadata.Term}
	if err := g.log.SaveSnapshot(kept); err != nil {
		return err
	}
	return g.log.ReleaseLockTo(metadata.Index)
}

func (s *store) Save(changes []storage.Change) error {
	if len(changes) == 1 {
		return s.groups[changes[0].Group].save(changes[0])
	}
	var wait sync.WaitGroup
	failures := make([]error, len(changes))
	for i := range changes {
		wait.Add(1)
		go func(i int) {
			defer wait.Done()
			failures[i] = s.groups[changes[i].Group].save(changes[i])
		}(i)
	}
	wait.Wait()
	for _, err := range failures {
		if err != nil {
			return err
		}
	}
	return nil
}

func (s *store) Compact(c storage.Compaction) error {
	g := s.groups[c.Group]
	metadata := c.Snapshot.Metadata
	_, err := g.memory.CreateSnapshot(metadata.Index, &metadata.ConfState, c.Snapshot.Data)
	if err != nil {
		return err
	}
	if err := g.keep(c.Snapshot); err != nil {
		return err
	}
	if err := g.memory.Compact(c.First - 1); err != nil && err != raft.ErrCompacted {
		return err
	}
	return nil
}

// Purge does nothing: etcd's server removes files that are no longer locked by a timer of its own.
func (s *store) Purge() ([]uint64, error) { return nil, nil }

func (s *store) Close() (err error) {
	for _, g := range s.groups {
		if failure := g.log.Close(); failure != nil {
			err = failure
		}
	}
	return
}
