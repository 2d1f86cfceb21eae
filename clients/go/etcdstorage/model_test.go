package etcdstorage

import (
	"fmt"
	"math"
	"math/rand"
	"path/filepath"
	"testing"

	"raftlog"

	"go.etcd.io/etcd/raft"
	pb "go.etcd.io/etcd/raft/raftpb"
)

// A pair is a group here, and the same group in etcd's own storage in memory, which says what is
// right.
type pair struct {
	storage *Storage
	memory  *raft.MemoryStorage
	term    uint64
}

// Two groups in one log, with changes at random, and openings between them.
func TestBesideMemoryStorage(t *testing.T) {
	// So small that a tail doesn't keep all.
	defer func(size int) { tailSize = size }(tailSize)
	tailSize = 100
	for seed := int64(0); seed < 8; seed++ {
		random := rand.New(rand.NewSource(seed))
		folder := filepath.Join(t.TempDir(), "log")
		log := opened(t, folder)
		pairs := []*pair{{term: 1}, {term: 1}}
		for i := range pairs {
			pairs[i].memory = raft.NewMemoryStorage()
			pairs[i].reopen(t, log, i)
		}
		for step := 0; step < 60; step++ {
			if random.Intn(15) == 0 {
				if err := log.Close(); err != nil {
					t.Fatal(err)
				}
				log = opened(t, folder)
				for i := range pairs {
					pairs[i].reopen(t, log, i)
				}
			}
			change(t, log, pairs, random)
			for i := range pairs {
				if said := pairs[i].difference(random); said != "" {
					t.Fatalf("seed %d, step %d, group %d: %s", seed, step, i, said)
				}
			}
		}
		if err := log.Close(); err != nil {
			t.Fatal(err)
		}
	}
}

func opened(t *testing.T, folder string) *raftlog.Engine {
	t.Helper()
	log, err := raftlog.Open(folder, "")
	if err != nil {
		t.Fatal(err)
	}
	return log
}

func (p *pair) reopen(t *testing.T, log *raftlog.Engine, i int) {
	t.Helper()
	var err error
	if p.storage, err = New(log, uint64(i)+1); err != nil {
		t.Fatal(err)
	}
}

// change saves in one or both of the groups, or compacts one.
func change(t *testing.T, log *raftlog.Engine, pairs []*pair, random *rand.Rand) {
	t.Helper()
	if random.Intn(6) == 0 {
		pairs[random.Intn(len(pairs))].compact(t, random)
		return
	}
	var changes []Change
	for _, p := range pairs {
		if random.Intn(3) > 0 {
			changes = append(changes, p.next(t, random))
		}
	}
	if err := SaveAll(log, changes, random.Intn(2) == 0); err != nil {
		t.Fatal(err)
	}
}

// next makes up a change, and makes it in memory.
func (p *pair) next(t *testing.T, random *rand.Rand) Change {
	t.Helper()
	c := Change{Storage: p.storage}
	last, _ := p.memory.LastIndex()
	snapshot, _ := p.memory.Snapshot()
	if random.Intn(12) == 0 {
		p.term++
		last += uint64(random.Intn(5))
		if last > snapshot.Metadata.Index {
			c.Snapshot = pb.Snapshot{Data: []byte(fmt.Sprint("state ", last))}
			c.Snapshot.Metadata = pb.SnapshotMetadata{Index: last, Term: p.term}
			if err := p.memory.ApplySnapshot(c.Snapshot); err != nil {
				t.Fatal(err)
			}
		}
	}
	// A new leader replaces the last ones, but none that a snapshot has.
	snapshot, _ = p.memory.Snapshot()
	from := last + 1
	if above := last - snapshot.Metadata.Index; random.Intn(4) == 0 && above > 0 {
		p.term++
		from -= uint64(random.Int63n(int64(above))) + 1
	}
	for count := uint64(random.Intn(6)); count > 0; count-- {
		data := make([]byte, random.Intn(20))
		c.Entries = append(c.Entries, pb.Entry{Index: from, Term: p.term, Data: data})
		from++
	}
	if err := p.memory.Append(c.Entries); err != nil {
		t.Fatal(err)
	}
	if random.Intn(2) == 0 {
		c.State = pb.HardState{Term: p.term, Vote: 1 + uint64(random.Intn(3)), Commit: last}
		_ = p.memory.SetHardState(c.State)
	}
	return c
}

func (p *pair) compact(t *testing.T, random *rand.Rand) {
	t.Helper()
	first, _ := p.memory.FirstIndex()
	last, _ := p.memory.LastIndex()
	snapshot, _ := p.memory.Snapshot()
	if last <= snapshot.Metadata.Index || last < first {
		return
	}
	index := last - uint64(random.Int63n(int64(last-snapshot.Metadata.Index)))
	if index < first {
		return
	}
	data := []byte(fmt.Sprint("state ", index))
	keepFrom := first + uint64(random.Int63n(int64(index+2-first)))
	if err := p.storage.CompactKeeping(index, keepFrom, pb.ConfState{}, data); err != nil {
		t.Fatal(err)
	}
	if _, err := p.memory.CreateSnapshot(index, nil, data); err != nil {
		t.Fatal(err)
	}
	if err := p.memory.Compact(keepFrom - 1); err != nil && err != raft.ErrCompacted {
		t.Fatal(err)
	}
}

// difference says where the two don't answer alike.
func (p *pair) difference(random *rand.Rand) string {
	one, other := raft.Storage(p.storage), raft.Storage(p.memory)
	first, _ := other.FirstIndex()
	last, _ := other.LastIndex()
	if has, _ := one.FirstIndex(); has != first {
		return fmt.Sprintf("first index %d, not %d", has, first)
	}
	if has, _ := one.LastIndex(); has != last {
		return fmt.Sprintf("last index %d, not %d", has, last)
	}
	// Of an entry below the first one etcd's storage has a term that this one needn't have.
	for index := first; index <= last+1; index++ {
		wanted, failure := other.Term(index)
		if term, err := one.Term(index); term != wanted || err != failure {
			return fmt.Sprintf("term of %d: %d, %v, not %d, %v", index, term, err, wanted, failure)
		}
	}
	if said := p.differentState(); said != "" || first > last {
		return said
	}
	lo := first + uint64(random.Int63n(int64(last+1-first)))
	hi := lo + 1 + uint64(random.Int63n(int64(last+1-lo)))
	bound := uint64(math.MaxUint64)
	if random.Intn(2) == 0 {
		bound = uint64(random.Intn(2 * tailSize))
	}
	entries, err := one.Entries(lo, hi, bound)
	wanted, failure := other.Entries(lo, hi, bound)
	if fmt.Sprint(entries) != fmt.Sprint(wanted) || err != failure {
		return fmt.Sprintf("entries %d to %d: %d, %v, not %d, %v", lo, hi-1, len(entries), err,
			len(wanted), failure)
	}
	return ""
}

func (p *pair) differentState() string {
	one, other := raft.Storage(p.storage), raft.Storage(p.memory)
	snapshot, _ := one.Snapshot()
	if wanted, _ := other.Snapshot(); snapshot.String() != wanted.String() {
		return fmt.Sprintf("snapshot %v, not %v", snapshot.Metadata, wanted.Metadata)
	}
	state, _, _ := one.InitialState()
	if wanted, _, _ := other.InitialState(); state.String() != wanted.String() {
		return fmt.Sprintf("state %v, not %v", state, wanted)
	}
	return ""
}
