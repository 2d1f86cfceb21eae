package transport

import (
	"bufio"
	"bytes"
	"fmt"
	"io"
	"log"
	"net"
	"strings"
	"sync"
	"testing"
	"time"

	pb "go.etcd.io/etcd/raft/raftpb"
)

// The group of messages that are sent until nodes are connected: what comes before is dropped.
const connecting = 0

// A recorder is a receiver that notes what it is told.
type recorder struct {
	mutex       sync.Mutex
	isConnected bool
	received    []Envelope
	unreachable int
	snapshots   map[bool]int
}

func (r *recorder) Received(e Envelope) {
	r.mutex.Lock()
	defer r.mutex.Unlock()
	if e.Group == connecting {
		r.isConnected = true
		return
	}
	r.received = append(r.received, e)
}

func (r *recorder) Unreachable(uint64) {
	r.mutex.Lock()
	defer r.mutex.Unlock()
	r.unreachable++
}

func (r *recorder) SentSnapshot(_, _ uint64, ok bool) {
	r.mutex.Lock()
	defer r.mutex.Unlock()
	if r.snapshots == nil {
		r.snapshots = map[bool]int{}
	}
	r.snapshots[ok]++
}

// await waits until what was noted is as it should be.
func (r *recorder) await(t *testing.T, what string, is func() bool) {
	t.Helper()
	for end := time.Now().Add(2 * time.Minute); time.Now().Before(end); {
		r.mutex.Lock()
		done := is()
		r.mutex.Unlock()
		if done {
			return
		}
		time.Sleep(5 * time.Millisecond)
	}
	t.Fatalf("%s: not in time", what)
}

func freeAddress(t *testing.T) string {
	t.Helper()
	listener, err := net.Listen("tcp", "127.0.0.1:0")
	if err != nil {
		t.Fatal(err)
	}
	defer listener.Close()
	return listener.Addr().String()
}

func begin(t *testing.T, config Config, r *recorder, said io.Writer) *Transport {
	t.Helper()
	config.Address, config.Log = config.Peers[config.Node], log.New(said, "", 0)
	started, err := Start(config, r)
	if err != nil {
		t.Fatal(err)
	}
	t.Cleanup(started.Close)
	return started
}

func message(group, from, to uint64, data string) Envelope {
	return Envelope{group, pb.Message{
		Type:    pb.MsgApp,
		From:    from,
		To:      to,
		Entries: []pb.Entry{{Index: group, Data: []byte(data)}},
	}}
}

// Messages come whole and in turn; what a node that is away is sent is dropped and told; when it is
// there again, they come again.
func TestMessages(t *testing.T) {
	peers := map[uint64]string{1: freeAddress(t), 2: freeAddress(t)}
	var one, two recorder
	first := begin(t, Config{Node: 1, Groups: 4, Peers: peers}, &one, io.Discard)
	second := begin(t, Config{Node: 2, Groups: 4, Peers: peers}, &two, io.Discard)
	two.await(t, "a connection", func() bool {
		first.Send(message(connecting, 1, 2, ""))
		return two.isConnected
	})
	for i := uint64(1); i <= 500; i++ {
		first.Send(message(i, 1, 2, strings.Repeat("x", int(i*100))))
	}
	two.await(t, "all messages", func() bool { return len(two.received) == 500 })
	for i, e := range two.received {
		data := e.Message.Entries[0].Data
		if e.Group != uint64(i+1) || len(data) != 100*(i+1) {
			t.Fatalf("message %d is of group %d with %d bytes", i+1, e.Group, len(data))
		}
	}
	snapshot := Envelope{1, pb.Message{Type: pb.MsgSnap, From: 1, To: 2}}
	first.Send(snapshot)
	one.await(t, "a snapshot that was sent", func() bool { return one.snapshots[true] == 1 })
	second.Close()
	one.await(t, "a node that is away", func() bool {
		first.Send(snapshot)
		return one.unreachable > 0 && one.snapshots[false] > 0
	})
	begin(t, Config{Node: 2, Groups: 4, Peers: peers}, &two, io.Discard)
	two.await(t, "messages after a restart", func() bool {
		first.Send(message(9, 1, 2, "again"))
		return two.received[len(two.received)-1].Group == 9
	})
}

// A node with another number of groups is told why it is refused, once.
func TestRefusal(t *testing.T) {
	peers := map[uint64]string{1: freeAddress(t), 2: freeAddress(t)}
	var one, two recorder
	said := &safeBuffer{}
	first := begin(t, Config{Node: 1, Groups: 4, Peers: peers}, &one, said)
	begin(t, Config{Node: 2, Groups: 5, Peers: peers}, &two, io.Discard)
	one.await(t, "a refusal", func() bool {
		first.Send(message(1, 1, 2, "x"))
		return strings.Contains(said.String(), "it has 4 groups and this node 5")
	})
	if len(two.received) > 0 {
		t.Fatal("a message was taken")
	}
}

type safeBuffer struct {
	mutex  sync.Mutex
	buffer bytes.Buffer
}

func (b *safeBuffer) Write(data []byte) (int, error) {
	b.mutex.Lock()
	defer b.mutex.Unlock()
	return b.buffer.Write(data)
}

func (b *safeBuffer) String() string {
	b.mutex.Lock()
	defer b.mutex.Unlock()
	return b.buffer.String()
}

// Strangers, and connections that say nothing right, are taken no messages from.
func TestHello(t *testing.T) {
	rows := []struct {
		h         hello
		objection string
	}{
		{hello{1, 2, 1, 4}, ""},
		{hello{2, 2, 1, 4}, "it speaks version 2 and this node 1"},
		{hello{1, 2, 3, 4}, "this is node 1, not node 3"},
		{hello{1, 9, 1, 4}, "node 9 isn't among the peers of node 1"},
		{hello{1, 2, 1, 1}, "it has 1 groups and this node 4"},
	}
	for _, row := range rows {
		if said := row.h.objection(1, 4, row.h.From == 2); said != row.objection {
			t.Errorf("%v: %s", row.h, said)
		}
	}
}

// A frame with any bit turned, or cut short anywhere, is refused.
func TestBrokenFrames(t *testing.T) {
	var whole bytes.Buffer
	to := bufio.NewWriter(&whole)
	e := message(3, 1, 2, "data")
	if err := e.write(to); err != nil {
		t.Fatal(err)
	}
	to.Flush()
	take := func(frame []byte) (Envelope, error) {
		return read(bufio.NewReader(bytes.NewReader(frame)))
	}
	if got, err := take(whole.Bytes()); err != nil || fmt.Sprint(got) != fmt.Sprint(e) {
		t.Fatal(got, err)
	}
	for bit := 0; bit < 8*whole.Len(); bit++ {
		frame := append([]byte(nil), whole.Bytes()...)
		frame[bit/8] ^= 1 << (bit % 8)
		if _, err := take(frame); err == nil {
			t.Errorf("a frame with bit %d turned was taken", bit)
		}
	}
	for size := 0; size < whole.Len(); size++ {
		if _, err := take(whole.Bytes()[:size]); err == nil {
			t.Errorf("%d bytes of a frame were taken", size)
		}
	}
}
