package machine

import (
	"encoding/binary"
	"errors"
)

// A Kind says what a command does.
type Kind byte

const (
	Put    Kind = 1
	Delete Kind = 2
	// Begin begins a session.
	Begin Kind = 3
)

// An Origin is the run of a node that proposed a command, and the number of the request there.
type Origin struct{ Run, Request uint64 }

// A Command is what one entry of a group's log holds.
type Command struct {
	Origin Origin
	Kind   Kind
	// The session of the client and the number of its write, or 0 for a write without a session.
	Session, Number uint64
	Key             string
	Value           []byte
}

// The version of the layout, then the kind and five numbers of 8 bytes: origin, session, number
// and the length of the key.
const (
	version  = 1
	headSize = 2 + 5*8
)

// Encode answers the bytes of an entry.
func (c Command) Encode() []byte {
	data := make([]byte, 0, headSize+len(c.Key)+len(c.Value))
	data = append(data, version, byte(c.Kind))
	numbers := []uint64{c.Origin.Run, c.Origin.Request, c.Session, c.Number, uint64(len(c.Key))}
	for _, n := range numbers {
		data = appendNumber(data, n)
	}
	data = append(data, c.Key...)
	return append(data, c.Value...)
}

// ErrLayout is what the bytes of another program, or of another version of this one, are told.
var ErrLayout = errors.New("an entry or a snapshot isn't one of this version of kv")

// Decode reads the bytes of an entry.
func Decode(data []byte) (Command, error) {
	if len(data) < headSize || data[0] != version {
		return Command{}, ErrLayout
	}
	var numbers [5]uint64
	for i := range numbers {
		numbers[i] = binary.BigEndian.Uint64(data[2+8*i:])
	}
	c := Command{
		Origin:  Origin{numbers[0], numbers[1]},
		Kind:    Kind(data[1]),
		Session: numbers[2],
		Number:  numbers[3],
	}
	rest, size := data[headSize:], numbers[4]
	if c.Kind < Put || c.Kind > Begin || size > uint64(len(rest)) {
		return Command{}, ErrLayout
	}
	c.Key, c.Value = string(rest[:size]), rest[size:]
	return c, nil
}

func appendNumber(data []byte, n uint64) []byte {
	var bytes [8]byte
	binary.BigEndian.PutUint64(bytes[:], n)
	return append(data, bytes[:]...)
}
