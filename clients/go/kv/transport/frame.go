package transport

import (
	"bufio"
	"encoding/binary"
	"encoding/json"
	"errors"
	"fmt"
	"hash/crc32"
	"io"

	pb "go.etcd.io/etcd/raft/raftpb"
)

// An Envelope is a message of one group.
type Envelope struct {
	Group   uint64
	Message pb.Message
}

// The length of what follows, its checksum, and the group.
const (
	headSize = 4 + 4 + 8
	maxSize  = 1 << 30
)

var (
	castagnoli = crc32.MakeTable(crc32.Castagnoli)
	errFrame   = errors.New("a message is damaged")
)

// tooLong says whether a message is longer than any that is sent.
func (e *Envelope) tooLong() bool { return e.Message.Size() > maxSize-8 }

func (e *Envelope) write(to *bufio.Writer) error {
	frame := make([]byte, headSize+e.Message.Size())
	binary.BigEndian.PutUint64(frame[8:], e.Group)
	if _, err := e.Message.MarshalTo(frame[headSize:]); err != nil {
		return err
	}
	binary.BigEndian.PutUint32(frame, uint32(len(frame)-8))
	binary.BigEndian.PutUint32(frame[4:], crc32.Checksum(frame[8:], castagnoli))
	_, err := to.Write(frame)
	return err
}

func read(from *bufio.Reader) (e Envelope, err error) {
	var head [8]byte
	if _, err = io.ReadFull(from, head[:]); err != nil {
		return
	}
	size := binary.BigEndian.Uint32(head[:])
	if size < 8 || size > maxSize {
		return e, errFrame
	}
	frame := make([]byte, size)
	if _, err = io.ReadFull(from, frame); err != nil {
		return
	}
	if crc32.Checksum(frame, castagnoli) != binary.BigEndian.Uint32(head[4:]) {
		return e, errFrame
	}
	e.Group = binary.BigEndian.Uint64(frame)
	err = e.Message.Unmarshal(frame[8:])
	return
}

// A hello is the first line of a connection, which the other side answers with a line: `ok`, or why
// it takes no messages.
type hello struct {
	Protocol, From, To, Groups uint64
}

const protocol = 1

func (h hello) write(to io.Writer) error {
	line, err := json.Marshal(h)
	if err != nil {
		return err
	}
	_, err = to.Write(append(line, '\n'))
	return err
}

// line reads a line, of at most the room that a reader has.
func line(from *bufio.Reader) (string, error) {
	bytes, err := from.ReadSlice('\n')
	if err != nil {
		return "", err
	}
	return string(bytes[:len(bytes)-1]), nil
}

// objection says why a node takes no messages of who says hello, or nothing.
func (h hello) objection(node, groups uint64, isPeer bool) string {
	switch {
	case h.Protocol != protocol:
		return fmt.Sprintf("it speaks version %d and this node %d", h.Protocol, protocol)
	case h.To != node:
		return fmt.Sprintf("this is node %d, not node %d", node, h.To)
	case !isPeer:
		return fmt.Sprintf("node %d isn't among the peers of node %d", h.From, node)
	case h.Groups != groups:
		return fmt.Sprintf("it has %d groups and this node %d", h.Groups, groups)
	}
	return ""
}

func readHello(from *bufio.Reader) (h hello, err error) {
	text, err := line(from)
	if err == nil {
		err = json.Unmarshal([]byte(text), &h)
	}
	return
}
