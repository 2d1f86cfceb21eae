// Package transport carries messages between nodes over TCP. Each node connects to each other one
// and sends on that connection alone. A message that can't be sent is dropped, which Raft allows.
package transport

import (
	"bufio"
	"fmt"
	"log"
	"net"
	"sync"
	"time"

	pb "go.etcd.io/etcd/raft/raftpb"
)

const (
	// How many messages wait for a peer at most.
	queueLength = 4096
	bufferSize  = 64 << 10
	// How long a connection may take to begin, or to take bytes.
	patience   = 3 * time.Second
	minBackoff = 50 * time.Millisecond
	maxBackoff = time.Second
)

// A Receiver is who gets what comes. Its calls may block, and come from many goroutines.
type Receiver interface {
	Received(Envelope)
	// Unreachable says that a message to a peer was dropped.
	Unreachable(peer uint64)
	// SentSnapshot says whether a snapshot was sent as a whole.
	SentSnapshot(group, peer uint64, ok bool)
}

// A Config says who a node is, and where the others listen.
type Config struct {
	Node, Groups uint64
	// Where it listens.
	Address string
	Peers   map[uint64]string
	// Takes what an operator should know.
	Log *log.Logger
}

// A Transport is one node's.
type Transport struct {
	config   Config
	receiver Receiver
	listener net.Listener
	peers    map[uint64]*peer

	mutex     sync.Mutex
	incoming  map[net.Conn]bool
	isClosed  bool
	goroutine sync.WaitGroup
	closing   chan struct{}
}

// Start listens, and begins to connect to the others.
func Start(config Config, receiver Receiver) (*Transport, error) {
	listener, err := net.Listen("tcp", config.Address)
	if err != nil {
		return nil, err
	}
	t := &Transport{
		config:   config,
		receiver: receiver,
		listener: listener,
		peers:    map[uint64]*peer{},
		incoming: map[net.Conn]bool{},
		closing:  make(chan struct{}),
	}
	for id, address := range config.Peers {
		if id == config.Node {
			continue
		}
		p := &peer{transport: t, id: id, address: address, queue: make(chan Envelope, queueLength)}
		t.peers[id] = p
		t.run(p.send)
	}
	t.run(t.accept)
	return t, nil
}

func (t *Transport) run(f func()) {
	t.goroutine.Add(1)
	go func() {
		defer t.goroutine.Done()
		f()
	}()
}

// Send hands a message over, and never waits.
func (t *Transport) Send(e Envelope) {
	p := t.peers[e.Message.To]
	if p == nil {
		return
	}
	select {
	case p.queue <- e:
	default:
		go p.dropped(e)
	}
}

// Close ends all connections, and waits for what was begun.
func (t *Transport) Close() {
	t.mutex.Lock()
	if t.isClosed {
		t.mutex.Unlock()
		return
	}
	t.isClosed = true
	close(t.closing)
	t.listener.Close()
	for connection := range t.incoming {
		connection.Close()
	}
	t.mutex.Unlock()
	t.goroutine.Wait()
}

func (t *Transport) accept() {
	for {
		connection, err := t.listener.Accept()
		if err != nil {
			select {
			case <-t.closing:
				return
			case <-time.After(minBackoff):
				continue
			}
		}
		if !t.note(connection) {
			return
		}
		t.run(func() { t.receive(connection) })
	}
}

// note takes a connection among those that a close ends.
func (t *Transport) note(connection net.Conn) bool {
	t.mutex.Lock()
	defer t.mutex.Unlock()
	if t.isClosed {
		connection.Close()
		return false
	}
	t.incoming[connection] = true
	return true
}

func (t *Transport) receive(connection net.Conn) {
	defer func() {
		t.mutex.Lock()
		delete(t.incoming, connection)
		t.mutex.Unlock()
		connection.Close()
	}()
	from := bufio.NewReaderSize(connection, bufferSize)
	id, err := t.greet(connection, from)
	for err == nil {
		var e Envelope
		if e, err = read(from); err == nil && e.Message.From == id && e.Message.To == t.config.Node {
			t.receiver.Received(e)
		}
	}
	if err == errFrame {
		t.config.Log.Printf("from node %d: %v; its connection is closed", id, err)
	}
}

// greet answers which node a connection comes from.
func (t *Transport) greet(connection net.Conn, from *bufio.Reader) (uint64, error) {
	connection.SetDeadline(time.Now().Add(patience))
	h, err := readHello(from)
	if err != nil {
		return 0, err
	}
	_, isPeer := t.peers[h.From]
	objection := h.objection(t.config.Node, t.config.Groups, isPeer)
	if objection != "" {
		fmt.Fprintf(connection, "%s\n", objection)
		return 0, fmt.Errorf("node %d is refused: %s", h.From, objection)
	}
	if _, err := fmt.Fprintln(connection, "ok"); err != nil {
		return 0, err
	}
	return h.From, connection.SetDeadline(time.Time{})
}

// A peer is another node, to which messages go.
type peer struct {
	transport *Transport
	id        uint64
	address   string
	queue     chan Envelope
	objection string
}

func (p *peer) dropped(e Envelope) {
	if e.Message.Type == pb.MsgSnap {
		p.transport.receiver.SentSnapshot(e.Group, p.id, false)
	}
	p.transport.receiver.Unreachable(p.id)
}

// send connects again and again, and drops what waits where it can't.
func (p *peer) send() {
	backoff := minBackoff
	for {
		connection, err := p.connect()
		if err == nil {
			backoff = minBackoff
			p.serve(connection)
			connection.Close()
		}
		p.dropAll()
		select {
		case <-p.transport.closing:
			return
		case <-time.After(backoff):
		}
		if backoff *= 2; backoff > maxBackoff {
			backoff = maxBackoff
		}
	}
}

func (p *peer) dropAll() {
	var last *Envelope
	for {
		select {
		case e := <-p.queue:
			if e.Message.Type == pb.MsgSnap {
				p.transport.receiver.SentSnapshot(e.Group, p.id, false)
			}
			last = &e
		default:
			if last != nil {
				p.transport.receiver.Unreachable(p.id)
			}
			return
		}
	}
}

func (p *peer) connect() (net.Conn, error) {
	connection, err := net.DialTimeout("tcp", p.address, patience)
	if err != nil {
		return nil, err
	}
	connection.SetDeadline(time.Now().Add(patience))
	config := p.transport.config
	err = hello{protocol, config.Node, p.id, config.Groups}.write(connection)
	answer := ""
	if err == nil {
		answer, err = line(bufio.NewReader(connection))
	}
	if err == nil && answer != "ok" {
		err = fmt.Errorf("node %d at %s takes no messages: %s", p.id, p.address, answer)
		if p.objection != answer {
			config.Log.Print(err)
		}
		p.objection = answer
	}
	if err != nil {
		connection.Close()
		return nil, err
	}
	p.objection = ""
	return connection, connection.SetDeadline(time.Time{})
}

// serve sends until that fails.
func (p *peer) serve(connection net.Conn) {
	to := bufio.NewWriterSize(connection, bufferSize)
	for {
		select {
		case <-p.transport.closing:
			return
		case e := <-p.queue:
			if err := p.write(connection, to, e); err != nil {
				p.dropped(e)
				return
			}
		}
	}
}

// write sends a message, and flushes behind the last one that waits.
func (p *peer) write(connection net.Conn, to *bufio.Writer, e Envelope) error {
	if e.tooLong() {
		size := e.Message.Size()
		p.transport.config.Log.Printf("a message of %d bytes for node %d is too long", size, p.id)
		p.dropped(e)
		return nil
	}
	// A second more for each megabyte.
	more := time.Duration(e.Message.Size()>>20) * time.Second
	connection.SetWriteDeadline(time.Now().Add(patience + more))
	if err := e.write(to); err != nil {
		return err
	}
	if e.Message.Type == pb.MsgSnap || len(p.queue) == 0 {
		if err := to.Flush(); err != nil {
			return err
		}
	}
	if e.Message.Type == pb.MsgSnap {
		p.transport.receiver.SentSnapshot(e.Group, p.id, true)
	}
	return nil
}
