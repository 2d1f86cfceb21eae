// Package machine is the state of one group: keys with their values, and the sessions by which a
// write that a client sends again acts once. Nodes that applied the same commands are equal.
package machine

import (
	"container/list"
	"encoding/binary"
	"sort"
)

// MaxSessions is how many sessions a group keeps; the one that was used least lately goes first.
const MaxSessions = 10000

// An Outcome says what became of a command.
type Outcome byte

const (
	// Done: it acted, now or when its number came first.
	Done Outcome = iota
	// Stale: a later number of its session acted before it, so it did nothing now.
	Stale
	// NoSession: its session never began or is gone, so it did nothing now.
	NoSession
)

// A Result is what a command is answered.
type Result struct {
	Outcome Outcome
	// The index of the entry by which it acted, which is the number of the session for Begin.
	Index uint64
	// Whether the key had a value before.
	Found bool
}

type session struct {
	id, number uint64
	result     Result
}

// A Machine is the state of a group.
type Machine struct {
	values map[string][]byte
	// The sessions, of which the front one was used least lately.
	order    *list.List
	sessions map[uint64]*list.Element
	// How many bytes its keys and values have.
	size uint64
}

// New is the state before the first command.
func New() *Machine {
	return &Machine{
		values:   map[string][]byte{},
		order:    list.New(),
		sessions: map[uint64]*list.Element{},
	}
}

// Get answers the value at a key, which isn't to be changed.
func (m *Machine) Get(key string) (value []byte, found bool) {
	value, found = m.values[key]
	return
}

// Keys answers how many keys have a value.
func (m *Machine) Keys() int { return len(m.values) }

// Size answers how many bytes the keys and values have.
func (m *Machine) Size() uint64 { return m.size }

// Apply carries out the command of the entry at an index.
func (m *Machine) Apply(index uint64, c Command) Result {
	if c.Kind == Begin {
		return m.begin(index)
	}
	if c.Session == 0 {
		return m.act(index, c)
	}
	element := m.sessions[c.Session]
	if element == nil {
		return Result{Outcome: NoSession}
	}
	m.order.MoveToBack(element)
	s := element.Value.(*session)
	if c.Number < s.number {
		return Result{Outcome: Stale}
	}
	if c.Number > s.number {
		s.number, s.result = c.Number, m.act(index, c)
	}
	return s.result
}

func (m *Machine) begin(index uint64) Result {
	if m.order.Len() >= MaxSessions {
		oldest := m.order.Remove(m.order.Front()).(*session)
		delete(m.sessions, oldest.id)
	}
	m.keep(&session{id: index})
	return Result{Index: index}
}

func (m *Machine) keep(s *session) { m.sessions[s.id] = m.order.PushBack(s) }

func (m *Machine) act(index uint64, c Command) Result {
	old, found := m.values[c.Key]
	if found {
		m.size -= uint64(len(c.Key) + len(old))
	}
	if c.Kind == Delete {
		delete(m.values, c.Key)
	} else {
		m.values[c.Key] = c.Value
		m.size += uint64(len(c.Key) + len(c.Value))
	}
	return Result{Index: index, Found: found}
}

// Snapshot answers the bytes of the state, which are those of each equal state.
func (m *Machine) Snapshot() []byte {
	data := make([]byte, 0, 64+m.size+16*uint64(len(m.values))+33*uint64(m.order.Len()))
	data = appendNumber(append(data, version), uint64(m.order.Len()))
	for e := m.order.Front(); e != nil; e = e.Next() {
		s := e.Value.(*session)
		data = appendNumber(appendNumber(data, s.id), s.number)
		data = appendNumber(data, s.result.Index)
		data = append(data, flag(s.result.Found))
	}
	keys := make([]string, 0, len(m.values))
	for key := range m.values {
		keys = append(keys, key)
	}
	sort.Strings(keys)
	data = appendNumber(data, uint64(len(keys)))
	for _, key := range keys {
		value := m.values[key]
		data = append(appendNumber(data, uint64(len(key))), key...)
		data = append(appendNumber(data, uint64(len(value))), value...)
	}
	return data
}

func flag(is bool) byte {
	if is {
		return 1
	}
	return 0
}

// Restore reads the bytes of a snapshot; none are the state before the first command.
func Restore(data []byte) (*Machine, error) {
	m := New()
	if len(data) == 0 {
		return m, nil
	}
	r := reader{data: data}
	if r.take(1)[0] != version {
		return nil, ErrLayout
	}
	for n := r.number(); n > 0 && !r.failed; n-- {
		s := &session{id: r.number(), number: r.number()}
		s.result = Result{Index: r.number(), Found: r.take(1)[0] == 1}
		m.keep(s)
	}
	for n := r.number(); n > 0 && !r.failed; n-- {
		key := string(r.take(r.number()))
		value := r.take(r.number())
		m.values[key] = value
		m.size += uint64(len(key) + len(value))
	}
	if r.failed || len(r.data) > 0 {
		return nil, ErrLayout
	}
	return m, nil
}

// A reader takes bytes from the front; past their end it answers zeros, and has failed.
type reader struct {
	data   []byte
	failed bool
}

func (r *reader) take(size uint64) []byte {
	if size > uint64(len(r.data)) {
		r.failed = true
		return make([]byte, 8)
	}
	taken := r.data[:size:size]
	r.data = r.data[size:]
	return taken
}

func (r *reader) number() uint64 { return binary.BigEndian.Uint64(r.take(8)) }
