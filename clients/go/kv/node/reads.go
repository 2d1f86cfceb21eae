package node

import (
	"encoding/binary"

	"go.etcd.io/etcd/raft"
)

// How many ticks an index is waited for before it is asked for again.
const readTicks = 3

// A read waits until the state is that of a moment after it came.
type read struct {
	key string
	// Takes one answer without waiting.
	answer chan readAnswer
	isGone bool
}

type readAnswer struct {
	value []byte
	found bool
}

// A readBatch waits until an index is applied.
type readBatch struct {
	index uint64
	reads []*read
}

// reads are those of a group: that wait to ask the leader for an index, those for which it was
// asked, and those whose index isn't applied yet. A read is answered once the state has all that
// was committed when the leader, which then heard of a majority, was asked.
type reads struct {
	run, last uint64
	waiting   []*read
	asked     []*read
	// How many ticks ago.
	age     int
	indexed []readBatch
}

// context is what tells the question of this run that was asked last.
func (r *reads) context() []byte {
	var context [16]byte
	binary.BigEndian.PutUint64(context[:], r.run)
	binary.BigEndian.PutUint64(context[8:], r.last)
	return context[:]
}

// askIndex asks for one index for all reads that wait, one question at a time.
func (g *group) askIndex() {
	r := &g.reads
	if len(r.waiting) == 0 || len(r.asked) > 0 {
		return
	}
	r.asked, r.waiting, r.age = r.waiting, nil, 0
	r.last++
	g.raw.ReadIndex(r.context())
}

// repeatReads asks once more where no answer came, as where a message was lost.
func (g *group) repeatReads() {
	r := &g.reads
	if len(r.asked) == 0 {
		return
	}
	if r.age++; r.age >= readTicks {
		for _, one := range r.asked {
			if !one.isGone {
				r.waiting = append(r.waiting, one)
			}
		}
		r.asked = nil
	}
}

// indexed takes the answer to a question.
func (g *group) indexed(state raft.ReadState) {
	r := &g.reads
	if len(r.asked) == 0 || string(state.RequestCtx) != string(r.context()) {
		return
	}
	r.indexed = append(r.indexed, readBatch{state.Index, r.asked})
	r.asked = nil
}

// answerReads answers those whose index is applied, and tells how many.
func (g *group) answerReads() (count uint64) {
	r := &g.reads
	kept := r.indexed[:0]
	for _, batch := range r.indexed {
		if batch.index > g.applied {
			kept = append(kept, batch)
			continue
		}
		for _, one := range batch.reads {
			value, found := g.machine.Get(one.key)
			one.answer <- readAnswer{value, found}
		}
		count += uint64(len(batch.reads))
	}
	r.indexed = kept
	return
}
