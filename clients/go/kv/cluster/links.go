package cluster

import (
	"io"
	"net"
	"sync"
	"sync/atomic"
)

// Links carry what nodes send each other, one for each direction of each two nodes, and can be
// made not to.
type Links struct {
	links [Size][Size]*link
}

// A Mode says what a link does.
type Mode int32

const (
	// Whole: it carries all.
	Whole Mode = iota
	// Cut: connections are closed, and closed again at once when they are made.
	Cut
	// Silent: connections stand, but nothing comes through.
	Silent
)

type link struct {
	listener net.Listener
	target   string
	mode     int32

	mutex       sync.Mutex
	connections map[net.Conn]bool
}

func newLinks(listen []string) (*Links, error) {
	l := &Links{}
	for i := range l.links {
		for j := range l.links[i] {
			if i == j {
				continue
			}
			listener, err := net.Listen("tcp", "127.0.0.1:0")
			if err != nil {
				return nil, err
			}
			l.links[i][j] = &link{
				listener:    listener,
				target:      listen[j],
				connections: map[net.Conn]bool{},
			}
			go l.links[i][j].accept()
		}
	}
	return l, nil
}

// seenBy answers where a node sends what is for each of them.
func (l *Links) seenBy(i int) (addresses []string) {
	for j, link := range l.links[i] {
		if i == j {
			// Its own place, where nobody sends.
			addresses = append(addresses, "127.0.0.1:0")
			continue
		}
		addresses = append(addresses, link.listener.Addr().String())
	}
	return
}

// Set makes the link from one node to another carry, or not.
func (l *Links) Set(from, to int, mode Mode) {
	if from != to {
		l.links[from][to].set(mode)
	}
}

// SetAround sets the links to and from a node.
func (l *Links) SetAround(i int, mode Mode) {
	for j := 0; j < Size; j++ {
		l.Set(i, j, mode)
		l.Set(j, i, mode)
	}
}

// Heal makes all links carry.
func (l *Links) Heal() {
	for i := 0; i < Size; i++ {
		l.SetAround(i, Whole)
	}
}

func (l *Links) close() {
	for i := range l.links {
		for _, link := range l.links[i] {
			if link != nil {
				link.listener.Close()
				link.closeAll()
			}
		}
	}
}

// set closes what stands where bytes were or will be missing.
func (l *link) set(mode Mode) {
	old := Mode(atomic.SwapInt32(&l.mode, int32(mode)))
	if old != mode && (mode == Cut || old == Silent) {
		l.closeAll()
	}
}

func (l *link) closeAll() {
	l.mutex.Lock()
	defer l.mutex.Unlock()
	for connection := range l.connections {
		connection.Close()
	}
}

func (l *link) is(mode Mode) bool { return atomic.LoadInt32(&l.mode) == int32(mode) }

func (l *link) accept() {
	for {
		from, err := l.listener.Accept()
		if err != nil {
			return
		}
		go l.carry(from)
	}
}

func (l *link) carry(from net.Conn) {
	defer from.Close()
	if l.is(Cut) {
		return
	}
	to, err := net.Dial("tcp", l.target)
	if err != nil {
		return
	}
	defer to.Close()
	l.note(from, to, true)
	defer l.note(from, to, false)
	go l.copy(from, to)
	l.copy(to, from)
}

func (l *link) note(from, to net.Conn, is bool) {
	l.mutex.Lock()
	defer l.mutex.Unlock()
	for _, connection := range []net.Conn{from, to} {
		if is {
			l.connections[connection] = true
		} else {
			delete(l.connections, connection)
		}
	}
}

// copy carries bytes one way until either end is closed, and drops them while the link is silent.
func (l *link) copy(to, from net.Conn) {
	defer to.Close()
	defer from.Close()
	_, _ = io.Copy(writer{l, to}, from)
}

type writer struct {
	link *link
	to   net.Conn
}

func (w writer) Write(bytes []byte) (int, error) {
	if w.link.is(Silent) {
		return len(bytes), nil
	}
	return w.to.Write(bytes)
}
