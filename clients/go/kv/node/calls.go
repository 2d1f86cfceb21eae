package node

import (
	"context"
	"errors"
	"sort"

	"kv/machine"
)

// Write proposes a command in a group, and waits until it is applied here. ErrNoLeader says that it
// never acts; after another error it may act, once for each time that it was proposed.
func (n *Node) Write(
	ctx context.Context, number uint64, c machine.Command,
) (machine.Result, error) {
	w := &write{command: c, answer: make(chan answer, 1)}
	g := n.groups[number]
	if g == nil {
		return machine.Result{}, ErrNoGroup
	}
	begun := n.give(func() {
		w.command.Origin = n.nextOrigin()
		g.proposals = append(g.proposals, w)
		n.dirty[g] = true
	})
	if !begun {
		return machine.Result{}, ErrStopped
	}
	select {
	case a := <-w.answer:
		return a.result, a.err
	case <-n.done:
		return machine.Result{}, ErrStopped
	case <-ctx.Done():
		n.give(func() { delete(g.writes, w.command.Origin.Request) })
		return machine.Result{}, ErrTimeout
	}
}

// ErrNoRead says that a read wasn't answered in time.
var ErrNoRead = errors.New("no answer came in time")

// Read answers the value of a key at a moment between the call and its answer.
func (n *Node) Read(ctx context.Context, number uint64, key string) ([]byte, bool, error) {
	one := &read{key: key, answer: make(chan readAnswer, 1)}
	g := n.groups[number]
	if g == nil {
		return nil, false, ErrNoGroup
	}
	begun := n.give(func() {
		g.reads.waiting = append(g.reads.waiting, one)
		n.dirty[g] = true
	})
	if !begun {
		return nil, false, ErrStopped
	}
	select {
	case a := <-one.answer:
		return a.value, a.found, nil
	case <-n.done:
		return nil, false, ErrStopped
	case <-ctx.Done():
		n.give(func() { one.isGone = true })
		return nil, false, ErrNoRead
	}
}

// A GroupStatus is what this node knows of a group.
type GroupStatus struct {
	Group uint64 `json:"group"`
	// 0 where none is known.
	Leader uint64 `json:"leader"`
	Term   uint64 `json:"term"`
	// The last entry that is known to be committed, and the last that was applied.
	Commit  uint64 `json:"commit"`
	Applied uint64 `json:"applied"`
	// The entries that are kept.
	First uint64 `json:"first"`
	Last  uint64 `json:"last"`
	Keys  int    `json:"keys"`
	Bytes uint64 `json:"bytes"`
}

// A Status is what a node tells of itself.
type Status struct {
	Node   uint64        `json:"node"`
	Stats  Stats         `json:"stats"`
	Groups []GroupStatus `json:"groups"`
}

// Status answers how the node stands.
func (n *Node) Status(ctx context.Context) (Status, error) {
	told := make(chan Status, 1)
	if !n.give(func() { told <- n.status() }) {
		return Status{}, ErrStopped
	}
	select {
	case status := <-told:
		return status, nil
	case <-n.done:
		return Status{}, ErrStopped
	case <-ctx.Done():
		return Status{}, ErrNoRead
	}
}

func (n *Node) status() Status {
	status := Status{Node: n.config.ID, Stats: n.stats}
	for _, g := range n.groups {
		status.Groups = append(status.Groups, g.status())
	}
	sort.Slice(status.Groups, func(i, j int) bool {
		return status.Groups[i].Group < status.Groups[j].Group
	})
	return status
}

func (g *group) status() GroupStatus {
	basic := g.raw.BasicStatus()
	first, _ := g.storage.FirstIndex()
	last, _ := g.storage.LastIndex()
	return GroupStatus{
		Group:   g.number,
		Leader:  basic.SoftState.Lead,
		Term:    basic.HardState.Term,
		Commit:  basic.HardState.Commit,
		Applied: g.applied,
		First:   first,
		Last:    last,
		Keys:    g.machine.Keys(),
		Bytes:   g.machine.Size(),
	}
}
