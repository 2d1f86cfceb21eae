// Package linear decides whether what clients saw of one key is linearizable: whether each
// operation can have acted at one moment between its call and its answer. The search is that of
// Wing and Gong, with the memory of tried states that Lowe added.
package linear

import (
	"encoding/binary"
	"errors"
	"math"
	"sort"
)

// A Kind says what an operation does to its key.
type Kind byte

const (
	Put Kind = iota
	Get
	Delete
)

// Absent is the value of a key that has none.
const Absent = 0

// Unknown is the time of an answer that never came: the operation may have acted at any moment
// since its call, or not at all.
const Unknown = math.MaxInt64

// An Operation is what a client called and was answered. Times are of one clock; an operation may
// act at both of its times.
type Operation struct {
	Kind Kind
	// What was put, or what a get answered: a number that stands for the value.
	Value uint64
	// Whether a delete was answered that there was a value.
	Found          bool
	Called, Return int64
}

// ErrUndecided says that the search took more than its bound of steps.
var ErrUndecided = errors.New("the search for an order took too many steps")

// An event is the call or the return of an operation, in a list by time.
type event struct {
	operation  int
	isCall     bool
	match      *event
	next, prev *event
}

func (e *event) unlink() {
	e.prev.next = e.next
	if e.next != nil {
		e.next.prev = e.prev
	}
}

func (e *event) relink() {
	e.prev.next = e
	if e.next != nil {
		e.next.prev = e
	}
}

// lift takes a call and its return out of the list, and lower puts them back.
func (e *event) lift() {
	e.unlink()
	e.match.unlink()
}

func (e *event) lower() {
	e.match.relink()
	e.relink()
}

// A taken call is one that the search let act, with the value that the key had before.
type taken struct {
	call   *event
	before uint64
}

// A search is for an order of a history's operations that explains their answers.
type search struct {
	history []Operation
	// The calls and returns that aren't in the order yet.
	head *event
	// The order so far, the operations in it, and the value behind them.
	order []taken
	acted set
	value uint64
	// What was tried: sets of operations with the value behind them.
	tried map[string]struct{}
}

// Check says whether a history of one key, absent at first, is linearizable. It fails as
// ErrUndecided after so many steps.
func Check(history []Operation, steps int) (bool, error) {
	s := &search{
		history: history,
		head:    arranged(history),
		acted:   newSet(len(history)),
		tried:   map[string]struct{}{},
	}
	at := s.head.next
	for ; s.head.next != nil; steps-- {
		switch {
		case steps == 0:
			return false, ErrUndecided
		case at.isCall && s.take(at):
			at = s.head.next
		case at.isCall:
			at = at.next
		case len(s.order) == 0:
			return false, nil
		default:
			// A return whose call can't act before it: the last call acted too early.
			at = s.takeBack().next
		}
	}
	return true, nil
}

// take lets a call act next, if its answer fits and that wasn't tried.
func (s *search) take(call *event) bool {
	after, fits := act(s.history[call.operation], s.value)
	if !fits {
		return false
	}
	s.acted.flip(call.operation)
	state := s.acted.with(after)
	if _, was := s.tried[state]; was {
		s.acted.flip(call.operation)
		return false
	}
	s.tried[state] = struct{}{}
	s.order = append(s.order, taken{call, s.value})
	s.value = after
	call.lift()
	return true
}

// takeBack puts the last call of the order back, and answers it.
func (s *search) takeBack() *event {
	last := s.order[len(s.order)-1]
	s.order = s.order[:len(s.order)-1]
	s.acted.flip(last.call.operation)
	s.value = last.before
	last.call.lower()
	return last.call
}

// act answers the value after an operation, and whether its answer fits the value before.
func act(o Operation, value uint64) (after uint64, fits bool) {
	isAnswered := o.Return != Unknown
	switch o.Kind {
	case Put:
		return o.Value, true
	case Delete:
		return Absent, !isAnswered || o.Found == (value != Absent)
	}
	return value, !isAnswered || o.Value == value
}

// arranged answers the head of the list of all calls and returns by time; of equal times calls
// come first.
func arranged(history []Operation) *event {
	events := make([]*event, 0, 2*len(history))
	for i := range history {
		call := &event{operation: i, isCall: true}
		call.match = &event{operation: i, match: call}
		events = append(events, call, call.match)
	}
	time := func(e *event) int64 {
		if e.isCall {
			return history[e.operation].Called
		}
		return history[e.operation].Return
	}
	sort.SliceStable(events, func(i, j int) bool {
		a, b := events[i], events[j]
		if time(a) != time(b) {
			return time(a) < time(b)
		}
		return a.isCall && !b.isCall
	})
	head := &event{}
	last := head
	for _, e := range events {
		last.next, e.prev = e, last
		last = e
	}
	return head
}

// A set of operations, with room for a value behind it.
type set []byte

func newSet(size int) set { return make(set, (size+7)/8+8) }

func (s set) flip(operation int) { s[operation/8] ^= 1 << (operation % 8) }

func (s set) with(value uint64) string {
	binary.BigEndian.PutUint64(s[len(s)-8:], value)
	return string(s)
}
