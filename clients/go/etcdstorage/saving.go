package etcdstorage

import (
	"raftlog"

	"go.etcd.io/etcd/raft"
	pb "go.etcd.io/etcd/raft/raftpb"
)

// A Change has what a Ready of a group asks to save. What is empty in it stays as it is.
type Change struct {
	Storage  *Storage
	State    pb.HardState
	Entries  []pb.Entry
	Snapshot pb.Snapshot
}

// SaveAll writes the changes of groups of one log as one batch, with one sync if requested. A group
// has at most one change. After an error the storages are as before; after raftlog.IO, and after a
// raftlog.NoMemory that failed the log, the next opening finds all of the changes or none.
func SaveAll(log *raftlog.Engine, changes []Change, sync bool) error {
	var batch raftlog.Batch
	for i := range changes {
		if err := changes[i].addTo(&batch); err != nil {
			return err
		}
	}
	if batch.Empty() {
		return nil
	}
	if err := log.Write(&batch, sync); err != nil {
		return err
	}
	for i := range changes {
		changes[i].note()
	}
	return nil
}

func (c *Change) addTo(batch *raftlog.Batch) error {
	s := c.Storage
	if !raft.IsEmptySnap(c.Snapshot) {
		data, err := c.Snapshot.Marshal()
		if err != nil {
			return err
		}
		batch.Put(s.group, snapshotKey, data)
		if _, last, found, err := s.log.Span(s.group); err != nil {
			return err
		} else if found {
			batch.Compact(s.group, last+1)
		}
	}
	if !raft.IsEmptyHardState(c.State) {
		data, err := c.State.Marshal()
		if err != nil {
			return err
		}
		batch.Put(s.group, stateKey, data)
	}
	list := make([]raftlog.Entry, len(c.Entries))
	for i := range c.Entries {
		data, err := c.Entries[i].Marshal()
		if err != nil {
			return err
		}
		list[i] = raftlog.Entry{Index: c.Entries[i].Index, Data: data}
	}
	batch.AddEntries(s.group, list)
	return nil
}

// note updates the storage in memory after the change was written.
func (c *Change) note() {
	s := c.Storage
	s.mutex.Lock()
	defer s.mutex.Unlock()
	if !raft.IsEmptySnap(c.Snapshot) {
		s.index, s.term = c.Snapshot.Metadata.Index, c.Snapshot.Metadata.Term
		s.tail = tail{first: s.index + 1, last: s.index}
	}
	if len(c.Entries) > 0 {
		s.tail.add(c.Entries)
	}
}

// The span of a group's entries, and the last ones of them, which raft reads most: a read of the
// log copies bytes and decodes them.
type tail struct {
	// The first and the last index; the last is below the first if there are no entries.
	first, last uint64
	// The last of the entries, without a gap.
	entries []pb.Entry
	size    int
}

// How many bytes of entries a tail keeps at most, with the last batch above it.
var tailSize = 1 << 20

// add appends entries, and replaces those from the first one's index on.
func (t *tail) add(entries []pb.Entry) {
	next := entries[0].Index
	if t.last < t.first || next < t.first {
		t.first = next
	}
	kept := t.below(next)
	if len(kept) < len(t.entries) || t.size > tailSize {
		kept = t.shortened(kept)
	}
	t.entries = append(kept, entries...)
	for i := range entries {
		t.size += entries[i].Size()
	}
	t.last = entries[len(entries)-1].Index
}

// below returns the kept entries before an index, and counts the bytes of these alone.
func (t *tail) below(index uint64) []pb.Entry {
	count := len(t.entries)
	for count > 0 && t.entries[count-1].Index >= index {
		count--
		t.size -= t.entries[count].Size()
	}
	if count > 0 && t.entries[count-1].Index+1 != index {
		count, t.size = 0, 0
	}
	return t.entries[:count]
}

// shortened copies entries, since a reader may hold the list, without the first half if they are
// many.
func (t *tail) shortened(kept []pb.Entry) []pb.Entry {
	if t.size > tailSize {
		half := len(kept) / 2
		for i := range kept[:half] {
			t.size -= kept[i].Size()
		}
		kept = kept[half:]
	}
	return append([]pb.Entry(nil), kept...)
}

// from returns the entries from lo to the one before hi, if all of them are kept.
func (t *tail) from(lo, hi uint64) ([]pb.Entry, bool) {
	if len(t.entries) == 0 || lo < t.entries[0].Index {
		return nil, false
	}
	at := lo - t.entries[0].Index
	end := hi - t.entries[0].Index
	return t.entries[at:end:end], true
}

// compact drops the entries below an index.
func (t *tail) compact(first uint64) {
	if first <= t.first {
		return
	}
	t.first = first
	if t.last < first {
		*t = tail{first: first, last: first - 1}
		return
	}
	for len(t.entries) > 0 && t.entries[0].Index < first {
		t.size -= t.entries[0].Size()
		t.entries = t.entries[1:]
	}
}
