// Package node runs one node's part of all groups: Raft by etcd's package, a machine for each
// group, one store for all. One goroutine takes what came, and does a round of all groups with it:
// one save, with at most one sync.
package node

import (
	"context"
	"fmt"
	"math/rand"
	"time"

	"kv/machine"
	"kv/storage"
	"kv/transport"

	"go.etcd.io/etcd/raft"
	pb "go.etcd.io/etcd/raft/raftpb"
)

const (
	tick           = 100 * time.Millisecond
	heartbeatTicks = 1
	electionTicks  = 10
	// How many events wait for the loop at most, and how many it takes for one round.
	inboxLength = 4096
	roundEvents = 1024
	maxMessage  = 1 << 20
	maxInflight = 256
	// What a leader that can't commit takes at most.
	maxUncommitted = 64 << 20
)

// A Config says who a node is.
type Config struct {
	ID    uint64
	Peers map[uint64]string
	// How many groups there are; they are 1, 2 and so on.
	Groups uint64
	// How many entries a group applies between two snapshots, and how many it keeps behind one.
	SnapshotEntries, KeepEntries uint64
	// The time between two purges.
	PurgeEvery time.Duration
}

// A Node is one process's part of all groups.
type Node struct {
	config    Config
	store     storage.Store
	transport *transport.Transport
	groups    map[uint64]*group
	// Groups that may have something ready.
	dirty map[*group]bool
	inbox chan func()
	done  chan struct{}
	// This run's name among all runs of nodes, and the number of its last request.
	run   uint64
	last  uint64
	stats Stats
}

// Stats are counts since the node began.
type Stats struct {
	// Rounds that saved something, those of them that synced, the changes of groups in them, and
	// those of these that had to be synced.
	Rounds  uint64 `json:"rounds"`
	Syncs   uint64 `json:"syncs"`
	Changes uint64 `json:"changes"`
	Synced  uint64 `json:"synced"`
	// Entries that were applied, and reads that were answered.
	Applied   uint64 `json:"applied"`
	Reads     uint64 `json:"reads"`
	Snapshots uint64 `json:"snapshots"`
	Purges    uint64 `json:"purges"`
}

// New opens the groups of a store; SetTransport and Run follow.
func New(config Config, store storage.Store) (*Node, error) {
	n := &Node{
		config: config,
		store:  store,
		groups: map[uint64]*group{},
		dirty:  map[*group]bool{},
		inbox:  make(chan func(), inboxLength),
		done:   make(chan struct{}),
		run:    rand.New(rand.NewSource(time.Now().UnixNano())).Uint64() | 1,
	}
	for number := uint64(1); number <= config.Groups; number++ {
		g, err := n.openGroup(number)
		if err != nil {
			return nil, fmt.Errorf("group %d: %w", number, err)
		}
		n.groups[number] = g
	}
	return n, nil
}

// SetTransport says what carries messages to the others.
func (n *Node) SetTransport(t *transport.Transport) { n.transport = t }

// Run works until the context ends, and answers nil, or until the store fails. What waits then is
// answered ErrStopped.
func (n *Node) Run(ctx context.Context) error {
	defer close(n.done)
	return n.loop(ctx)
}

func (n *Node) loop(ctx context.Context) (err error) {
	// Raft panics where its storage fails.
	defer recoverTo(&err)
	ticker := time.NewTicker(tick)
	defer ticker.Stop()
	purged := make(chan purge, 1)
	purges := time.NewTicker(n.config.PurgeEvery)
	defer purges.Stop()
	isPurging := false
	for {
		select {
		case <-ctx.Done():
			return nil
		case event := <-n.inbox:
			event()
		case <-ticker.C:
			n.tick()
		case <-purges.C:
			if !isPurging {
				isPurging = true
				go n.purge(purged)
			}
		case p := <-purged:
			isPurging = false
			if p.err != nil {
				return p.err
			}
			n.compactOld(p.groups)
		}
		n.takeMore()
		if err := n.rounds(); err != nil {
			return err
		}
	}
}

// takeMore takes what waits already.
func (n *Node) takeMore() {
	for i := 0; i < roundEvents; i++ {
		select {
		case event := <-n.inbox:
			event()
		default:
			return
		}
	}
}

// A purge is what one answered.
type purge struct {
	groups []uint64
	err    error
}

func (n *Node) purge(purged chan<- purge) {
	groups, err := n.store.Purge()
	purged <- purge{groups, err}
}

// compactOld makes snapshots of groups whose old entries keep log files from being dropped.
func (n *Node) compactOld(numbers []uint64) {
	n.stats.Purges++
	for _, number := range numbers {
		if g := n.groups[number]; g != nil {
			g.isOld = true
			n.dirty[g] = true
		}
	}
}

func (n *Node) tick() {
	for _, g := range n.groups {
		g.raw.Tick()
		g.repeatReads()
		n.dirty[g] = true
	}
}

// give hands an event to the loop; it answers false once that has ended.
func (n *Node) give(event func()) bool {
	select {
	case n.inbox <- event:
		return true
	case <-n.done:
		return false
	}
}

// Received implements transport.Receiver.
func (n *Node) Received(e transport.Envelope) {
	n.give(func() {
		if g := n.groups[e.Group]; g != nil {
			// What Raft doesn't take, as a message of an old leader, is dropped.
			_ = g.raw.Step(e.Message)
			n.dirty[g] = true
		}
	})
}

// Unreachable implements transport.Receiver.
func (n *Node) Unreachable(peer uint64) {
	n.give(func() {
		for _, g := range n.groups {
			g.raw.ReportUnreachable(peer)
		}
	})
}

// SentSnapshot implements transport.Receiver.
func (n *Node) SentSnapshot(number, peer uint64, ok bool) {
	status := raft.SnapshotFailure
	if ok {
		status = raft.SnapshotFinish
	}
	n.give(func() {
		if g := n.groups[number]; g != nil {
			g.raw.ReportSnapshot(peer, status)
			n.dirty[g] = true
		}
	})
}

func (n *Node) conf() pb.ConfState {
	var conf pb.ConfState
	for id := uint64(1); id <= uint64(len(n.config.Peers)); id++ {
		conf.Voters = append(conf.Voters, id)
	}
	return conf
}

// Group answers the group of a key, which all nodes and clients know alike.
func Group(key string, groups uint64) uint64 {
	// FNV-1a.
	hash := uint64(14695981039346656037)
	for i := 0; i < len(key); i++ {
		hash = (hash ^ uint64(key[i])) * 1099511628211
	}
	return 1 + hash%groups
}

// nextOrigin numbers a request.
func (n *Node) nextOrigin() machine.Origin {
	n.last++
	return machine.Origin{Run: n.run, Request: n.last}
}
