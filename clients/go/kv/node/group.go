package node

import (
	"errors"
	"fmt"
	"io"
	"log"

	"kv/machine"
	"kv/storage"

	"go.etcd.io/etcd/raft"
	pb "go.etcd.io/etcd/raft/raftpb"
)

// The index and the term at which the log of each group begins: a group begins with a snapshot of
// nothing, which tells who its voters are.
const beginning = 1

// A group is one Raft group at this node.
type group struct {
	number  uint64
	raw     *raft.RawNode
	storage raft.Storage
	machine *machine.Machine
	// The index of the last entry that was applied, and of the last snapshot.
	applied, snapshotIndex uint64
	// Its old entries keep log files from being dropped.
	isOld bool

	// Writes that wait to be proposed, and those that wait to be applied by their number.
	proposals []*write
	writes    map[uint64]*write
	reads     reads
}

// openGroup takes over what the store has of a group, or begins it.
func (n *Node) openGroup(number uint64) (g *group, err error) {
	// Raft panics at a log that can't be one of its own.
	defer recoverTo(&err)
	stored, err := n.store.Group(number)
	if err != nil {
		return nil, err
	}
	snapshot, err := stored.Snapshot()
	if err != nil {
		return nil, err
	}
	isNew := raft.IsEmptySnap(snapshot)
	if isNew {
		if snapshot, err = n.beginGroup(number); err != nil {
			return nil, err
		}
	}
	g = &group{number: number, storage: stored, writes: map[uint64]*write{}}
	g.reads.run = n.run
	if err := g.restore(snapshot); err != nil {
		return nil, err
	}
	g.raw, err = raft.NewRawNode(n.raftConfig(g))
	if err != nil {
		return nil, err
	}
	// One node of each new group stands for election at once, so that leaders are spread.
	if isNew && number%uint64(len(n.config.Peers))+1 == n.config.ID {
		err = g.raw.Campaign()
	}
	n.dirty[g] = true
	return g, err
}

func (n *Node) beginGroup(number uint64) (snapshot pb.Snapshot, err error) {
	snapshot.Metadata = pb.SnapshotMetadata{
		Index:     beginning,
		Term:      beginning,
		ConfState: n.conf(),
	}
	state := pb.HardState{Term: beginning, Commit: beginning}
	change := storage.Change{Group: number, State: state, Snapshot: snapshot, MustSync: true}
	return snapshot, n.store.Save([]storage.Change{change})
}

// recoverTo makes an error of a panic.
func recoverTo(err *error) {
	if recovered := recover(); recovered != nil {
		*err = fmt.Errorf("raft has given up: %v", recovered)
	}
}

var quiet = &raft.DefaultLogger{Logger: log.New(io.Discard, "", 0)}

func (n *Node) raftConfig(g *group) *raft.Config {
	return &raft.Config{
		ID:                        n.config.ID,
		ElectionTick:              electionTicks,
		HeartbeatTick:             heartbeatTicks,
		Storage:                   g.storage,
		Applied:                   g.applied,
		MaxSizePerMsg:             maxMessage,
		MaxCommittedSizePerReady:  maxMessage,
		MaxUncommittedEntriesSize: maxUncommitted,
		MaxInflightMsgs:           maxInflight,
		CheckQuorum:               true,
		PreVote:                   true,
		Logger:                    quiet,
	}
}

// restore takes over the state of a snapshot.
func (g *group) restore(snapshot pb.Snapshot) error {
	restored, err := machine.Restore(snapshot.Data)
	if err != nil {
		return err
	}
	g.machine = restored
	g.applied, g.snapshotIndex = snapshot.Metadata.Index, snapshot.Metadata.Index
	return nil
}

var (
	// ErrNoLeader: nothing was written, and the write may be sent again.
	ErrNoLeader = errors.New("no leader is known, nothing was written")
	// ErrTimeout: the write may act later, or may have acted.
	ErrTimeout = errors.New("no answer came in time, it may or may not have acted")
	// ErrStopped: as for ErrTimeout.
	ErrStopped = errors.New("the node stops, it may or may not have acted")
	// ErrNoGroup: there is no such group.
	ErrNoGroup = errors.New("there is no such group")
)

type answer struct {
	result machine.Result
	err    error
}

type write struct {
	command machine.Command
	// Takes one answer without waiting.
	answer chan answer
}

// propose hands the writes that wait to Raft as one message. They are for the leader, or are sent
// to it.
func (g *group) propose() {
	if len(g.proposals) == 0 {
		return
	}
	waiting := g.proposals
	g.proposals = nil
	message := pb.Message{Type: pb.MsgProp, From: g.raw.BasicStatus().ID}
	for _, w := range waiting {
		message.Entries = append(message.Entries, pb.Entry{Data: w.command.Encode()})
	}
	err := g.raw.Step(message)
	for _, w := range waiting {
		if err == nil {
			g.writes[w.command.Origin.Request] = w
		} else {
			w.answer <- answer{err: ErrNoLeader}
		}
	}
}

// answerWrite answers who waits for a request, if anybody still does.
func (g *group) answerWrite(request uint64, result machine.Result) {
	if w := g.writes[request]; w != nil {
		delete(g.writes, request)
		w.answer <- answer{result: result}
	}
}
