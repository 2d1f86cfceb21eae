package node

import (
	"kv/machine"
	"kv/storage"
	"kv/transport"

	"go.etcd.io/etcd/raft"
	pb "go.etcd.io/etcd/raft/raftpb"
)

// A turn is what one group has ready in a round.
type turn struct {
	group    *group
	ready    raft.Ready
	isLeader bool
}

// rounds does rounds until no group has anything ready.
func (n *Node) rounds() error {
	for len(n.dirty) > 0 {
		turns := n.gather()
		if len(turns) == 0 {
			return nil
		}
		if err := n.round(turns); err != nil {
			return err
		}
	}
	return nil
}

// gather takes what is ready.
func (n *Node) gather() (turns []turn) {
	for g := range n.dirty {
		delete(n.dirty, g)
		g.propose()
		g.askIndex()
		if g.raw.HasReady() || g.isOld {
			isLeader := g.raw.BasicStatus().RaftState == raft.StateLeader
			turns = append(turns, turn{g, g.raw.Ready(), isLeader})
		}
	}
	return
}

// round saves what is ready in all groups at once, sends, and applies. A leader's messages may go
// before its own save: it counts itself for a commit only in a later round.
func (n *Node) round(turns []turn) error {
	var changes []storage.Change
	for _, t := range turns {
		if t.isLeader {
			n.send(t)
		}
		if change, is := t.change(); is {
			changes = append(changes, change)
		}
	}
	if len(changes) > 0 {
		if err := n.store.Save(changes); err != nil {
			return err
		}
		n.stats.Rounds++
		n.stats.Changes += uint64(len(changes))
		if synced := storage.MustSync(changes); synced > 0 {
			n.stats.Syncs++
			n.stats.Synced += synced
		}
	}
	for _, t := range turns {
		if !t.isLeader {
			n.send(t)
		}
		if err := n.apply(t); err != nil {
			return err
		}
		t.group.raw.Advance(t.ready)
		n.dirty[t.group] = true
		if err := n.compact(t.group); err != nil {
			return err
		}
	}
	return nil
}

// change is what a turn has to be saved, if anything.
func (t turn) change() (storage.Change, bool) {
	is := !raft.IsEmptyHardState(t.ready.HardState) || len(t.ready.Entries) > 0 ||
		!raft.IsEmptySnap(t.ready.Snapshot)
	return storage.Change{
		Group:    t.group.number,
		State:    t.ready.HardState,
		Entries:  t.ready.Entries,
		Snapshot: t.ready.Snapshot,
		MustSync: t.ready.MustSync || !raft.IsEmptySnap(t.ready.Snapshot),
	}, is
}

func (n *Node) send(t turn) {
	for _, message := range t.ready.Messages {
		n.transport.Send(transport.Envelope{Group: t.group.number, Message: message})
	}
}

func (n *Node) apply(t turn) error {
	g := t.group
	if !raft.IsEmptySnap(t.ready.Snapshot) {
		if err := g.restore(t.ready.Snapshot); err != nil {
			return err
		}
	}
	for i := range t.ready.CommittedEntries {
		if err := n.applyEntry(g, &t.ready.CommittedEntries[i]); err != nil {
			return err
		}
	}
	for _, state := range t.ready.ReadStates {
		g.indexed(state)
	}
	n.stats.Reads += g.answerReads()
	return nil
}

func (n *Node) applyEntry(g *group, entry *pb.Entry) error {
	g.applied = entry.Index
	n.stats.Applied++
	// A new leader begins with an entry without a command.
	if len(entry.Data) == 0 {
		return nil
	}
	command, err := machine.Decode(entry.Data)
	if err != nil {
		return err
	}
	result := g.machine.Apply(entry.Index, command)
	if command.Origin.Run == n.run {
		g.answerWrite(command.Origin.Request, result)
	}
	return nil
}

// compact keeps a snapshot where one is due, and drops entries below it.
func (n *Node) compact(g *group) error {
	isOld := g.isOld
	g.isOld = false
	if !isOld && g.applied-g.snapshotIndex < n.config.SnapshotEntries {
		return nil
	}
	first, err := g.storage.FirstIndex()
	if err != nil || first > g.applied {
		return err
	}
	keep := n.config.KeepEntries
	if isOld {
		keep = 0
	}
	if g.applied >= keep+first {
		first = g.applied - keep + 1
	}
	term, err := g.storage.Term(g.applied)
	if err != nil {
		return err
	}
	compaction := storage.Compaction{Group: g.number, First: first}
	compaction.Snapshot.Data = g.machine.Snapshot()
	compaction.Snapshot.Metadata = pb.SnapshotMetadata{
		Index:     g.applied,
		Term:      term,
		ConfState: n.conf(),
	}
	if err := n.store.Compact(compaction); err != nil {
		return err
	}
	g.snapshotIndex = g.applied
	n.stats.Snapshots++
	return nil
}
