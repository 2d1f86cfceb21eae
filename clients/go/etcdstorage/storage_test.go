package etcdstorage

import (
	"fmt"
	"io/ioutil"
	"log"
	"math"
	"os"
	"path/filepath"
	"testing"

	"raftlog"

	"go.etcd.io/etcd/raft"
	pb "go.etcd.io/etcd/raft/raftpb"
)

func init() { raft.SetLogger(&raft.DefaultLogger{Logger: log.New(ioutil.Discard, "", 0)}) }

// A node over a folder of its own: a raw node, its storage, and what it applied.
type node struct {
	id      uint64
	folder  string
	log     *raftlog.Engine
	storage *Storage
	raw     *raft.RawNode
	applied []string
	index   uint64
	conf    pb.ConfState
	kills   int
}

const group = 9

func (n *node) open(t *testing.T, peers []raft.Peer) {
	var err error
	if n.log, err = raftlog.Open(n.folder, `target-file-size = "64KB"`); err != nil {
		t.Fatal(err)
	}
	if n.storage, err = New(n.log, group); err != nil {
		t.Fatal(err)
	}
	n.index = n.storage.index
	snapshot, _ := n.storage.Snapshot()
	n.applied = nil
	if len(snapshot.Data) > 0 {
		n.applied = lines(snapshot.Data)
	}
	config := &raft.Config{
		ID:              n.id,
		ElectionTick:    10,
		HeartbeatTick:   1,
		Storage:         n.storage,
		MaxSizePerMsg:   1 << 12,
		MaxInflightMsgs: 64,
		Applied:         n.index,
	}
	if n.raw, err = raft.NewRawNode(config); err != nil {
		t.Fatal(err)
	}
	if peers != nil {
		if err = n.raw.Bootstrap(peers); err != nil {
			t.Fatal(err)
		}
	}
}

func lines(data []byte) (all []string) {
	start := 0
	for i, c := range data {
		if c == '\n' {
			all = append(all, string(data[start:i]))
			start = i + 1
		}
	}
	return
}

func (n *node) state() []byte {
	var data []byte
	for _, line := range n.applied {
		data = append(append(data, line...), '\n')
	}
	return data
}

// Saves and applies what is ready, and answers the messages.
func (n *node) turn(t *testing.T) (messages []pb.Message) {
	for n.raw.HasReady() {
		ready := n.raw.Ready()
		err := n.storage.Save(ready.HardState, ready.Entries, ready.Snapshot, ready.MustSync)
		if err != nil {
			t.Fatal(err)
		}
		if !raft.IsEmptySnap(ready.Snapshot) {
			n.applied, n.index = lines(ready.Snapshot.Data), ready.Snapshot.Metadata.Index
			n.conf = ready.Snapshot.Metadata.ConfState
		}
		messages = append(messages, ready.Messages...)
		for _, entry := range ready.CommittedEntries {
			if entry.Type == pb.EntryConfChange {
				var change pb.ConfChange
				if err := change.Unmarshal(entry.Data); err != nil {
					t.Fatal(err)
				}
				n.conf = *n.raw.ApplyConfChange(change)
			} else if len(entry.Data) > 0 {
				n.applied = append(n.applied, string(entry.Data))
			}
			n.index = entry.Index
		}
		n.raw.Advance(ready)
	}
	return
}

// Three nodes, one of which may be down.
type cluster struct {
	t        *testing.T
	nodes    map[uint64]*node
	down     uint64
	proposed []string
}

func newCluster(t *testing.T) *cluster {
	var peers []raft.Peer
	c := &cluster{t: t, nodes: map[uint64]*node{}}
	for id := uint64(1); id <= 3; id++ {
		peers = append(peers, raft.Peer{ID: id})
		c.nodes[id] = &node{id: id, folder: filepath.Join(t.TempDir(), fmt.Sprint("node-", id))}
	}
	for _, n := range c.nodes {
		n.open(t, peers)
	}
	return c
}

// Ticks, and hands messages over until there are none.
func (c *cluster) exchange(ticks int) {
	for i := 0; i < ticks; i++ {
		for id := uint64(1); id <= 3; id++ {
			if id != c.down {
				c.nodes[id].raw.Tick()
			}
		}
		for again := true; again; {
			again = false
			for id := uint64(1); id <= 3; id++ {
				if id == c.down {
					continue
				}
				for _, message := range c.nodes[id].turn(c.t) {
					again = true
					if to := message.To; to != c.down {
						c.nodes[to].raw.Step(message)
					}
				}
			}
		}
	}
}

func (c *cluster) leader() *node {
	for i := 0; i < 50; i++ {
		for id, n := range c.nodes {
			if id != c.down && n.raw.Status().RaftState == raft.StateLeader {
				return n
			}
		}
		c.exchange(5)
	}
	c.t.Fatal("no leader")
	return nil
}

// Proposes so many commands, twenty at a time.
func (c *cluster) propose(count int) {
	for i := 0; i < count; i += 20 {
		leader := c.leader()
		for k := i; k < i+20 && k < count; k++ {
			text := fmt.Sprintf("command %d of some length, so that several log files are begun",
				len(c.proposed))
			if err := leader.raw.Propose([]byte(text)); err != nil {
				c.t.Fatal(err)
			}
			c.proposed = append(c.proposed, text)
		}
		c.exchange(1)
	}
	c.exchange(3)
}

// Each node that is up applied all that was proposed, and their logs are equal where they have entries.
func (c *cluster) check() {
	c.t.Helper()
	var kept [][]pb.Entry
	first, last := uint64(0), uint64(math.MaxUint64)
	for id, n := range c.nodes {
		if id == c.down {
			continue
		}
		if fmt.Sprint(n.applied) != fmt.Sprint(c.proposed) {
			c.t.Fatalf("node %d applied %d of %d", n.id, len(n.applied), len(c.proposed))
		}
		from, _ := n.storage.FirstIndex()
		to, _ := n.storage.LastIndex()
		if from > first {
			first = from
		}
		if to < last {
			last = to
		}
	}
	for id, n := range c.nodes {
		if id == c.down || first > last {
			continue
		}
		entries, err := n.storage.Entries(first, last+1, math.MaxUint64)
		if err != nil {
			c.t.Fatal(err)
		}
		kept = append(kept, entries)
	}
	for _, entries := range kept {
		if fmt.Sprint(entries) != fmt.Sprint(kept[0]) {
			c.t.Fatal("logs differ")
		}
	}
}

// Takes a node down with a close, or as a kill does: what is found again is what stands in the files
// at this moment.
func (c *cluster) stop(id uint64, kill bool) {
	n := c.nodes[id]
	c.down = id
	if kill {
		n.kills++
		copied := fmt.Sprint(n.folder, "-", n.kills)
		copyFolder(c.t, n.folder, copied)
		defer func(old string) { n.folder = copied; os.RemoveAll(old) }(n.folder)
	}
	if err := n.log.Close(); err != nil {
		c.t.Fatal(err)
	}
}

func (c *cluster) start(id uint64) {
	c.nodes[id].open(c.t, nil)
	c.down = 0
}

func copyFolder(t *testing.T, from, to string) {
	files, err := ioutil.ReadDir(from)
	if err == nil {
		err = os.MkdirAll(to, 0777)
	}
	for _, file := range files {
		var data []byte
		if err == nil {
			data, err = ioutil.ReadFile(filepath.Join(from, file.Name()))
		}
		if err == nil {
			err = ioutil.WriteFile(filepath.Join(to, file.Name()), data, 0666)
		}
	}
	if err != nil {
		t.Fatal(err)
	}
}

// compactAround drops the entries of all nodes but one, so that it needs a snapshot.
func (c *cluster) compactAround(id uint64) {
	for other, n := range c.nodes {
		if other == id {
			continue
		}
		if err := n.storage.Compact(n.index, n.conf, n.state()); err != nil {
			c.t.Fatal(err)
		}
		if _, err := n.log.MustPurgeAllStale(); err != nil {
			c.t.Fatal(err)
		}
	}
}

// Ten thousand commands, while each node is stopped once, one of them needs a snapshot, and one is
// killed twelve times.
func TestThreeNodes(t *testing.T) {
	c := newCluster(t)
	c.propose(2000)
	c.check()
	for id := uint64(1); id <= 3; id++ {
		c.stop(id, false)
		c.propose(1000)
		if id == 1 {
			c.compactAround(id)
		}
		c.start(id)
		c.propose(500)
		c.check()
	}
	for i := 0; i < 12; i++ {
		c.propose(150)
		c.stop(2, true)
		c.propose(100)
		c.start(2)
		c.propose(50)
		c.check()
	}
	if len(c.proposed) < 10000 {
		t.Fatal(len(c.proposed))
	}
	for _, n := range c.nodes {
		if err := n.log.Close(); err != nil {
			t.Fatal(err)
		}
	}
}

// filled is a storage with the entries 1 to 10, of terms 1 to 3.
func filled(t *testing.T, log *raftlog.Engine) (*Storage, []pb.Entry) {
	t.Helper()
	s, err := New(log, 1)
	if err != nil {
		t.Fatal(err)
	}
	first, _ := s.FirstIndex()
	last, _ := s.LastIndex()
	term, err := s.Term(0)
	if first != 1 || last != 0 || term != 0 || err != nil {
		t.Fatal(first, last, term, err)
	}
	var entries []pb.Entry
	for i := uint64(1); i <= 10; i++ {
		entries = append(entries, pb.Entry{Index: i, Term: 1 + i/5, Data: []byte("data")})
	}
	state := pb.HardState{Term: 3, Vote: 2, Commit: 7}
	if err = s.Save(state, entries, pb.Snapshot{}, true); err != nil {
		t.Fatal(err)
	}
	return s, entries
}

func inMemory(t *testing.T) *raftlog.Engine {
	t.Helper()
	log, err := raftlog.OpenMemory("")
	if err != nil {
		t.Fatal(err)
	}
	t.Cleanup(func() { log.Close() })
	return log
}

func TestEntries(t *testing.T) {
	s, entries := filled(t, inMemory(t))
	found, err := s.Entries(2, 11, math.MaxUint64)
	if err != nil || len(found) != 9 || found[0].Index != 2 || string(found[8].Data) != "data" {
		t.Fatal(found, err)
	}
	size := uint64(entries[1].Size() + entries[2].Size())
	if found, err = s.Entries(2, 11, size); err != nil || len(found) != 2 {
		t.Fatal(found, err)
	}
	if found, err = s.Entries(2, 11, 0); err != nil || len(found) != 1 {
		t.Fatal(found, err)
	}
	if _, err = s.Entries(5, 12, 100); err != raft.ErrUnavailable {
		t.Fatal(err)
	}
}

func TestCompaction(t *testing.T) {
	log := inMemory(t)
	s, _ := filled(t, log)
	if err := s.Compact(4, pb.ConfState{}, []byte("state\n")); err != nil {
		t.Fatal(err)
	}
	if _, err := s.Entries(4, 6, 100); err != raft.ErrCompacted {
		t.Fatal(err)
	}
	if term, err := s.Term(4); term != 1 || err != nil {
		t.Fatal(term, err)
	}
	if _, err := s.Term(3); err != raft.ErrCompacted {
		t.Fatal(err)
	}
	s, err := New(log, 1)
	if err != nil {
		t.Fatal(err)
	}
	first, _ := s.FirstIndex()
	state, _, err := s.InitialState()
	if first != 5 || state.Vote != 2 || err != nil {
		t.Fatal(first, state, err)
	}
}
