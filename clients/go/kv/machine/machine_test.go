package machine

import (
	"bufio"
	"bytes"
	"fmt"
	"os"
	"strconv"
	"strings"
	"testing"
)

func TestCommands(t *testing.T) {
	file, err := os.Open("testdata/commands")
	if err != nil {
		t.Fatal(err)
	}
	defer file.Close()
	m := New()
	count := 0
	for lines := bufio.NewScanner(file); lines.Scan(); {
		line := lines.Text()
		if line == "" || line[0] == '#' {
			continue
		}
		count++
		sides := strings.SplitN(line, " -> ", 2)
		if said := play(m, strings.Split(sides[0], " ")); said != sides[1] {
			t.Errorf("%s: %s", line, said)
		}
		m = restored(t, m)
	}
	if count < 30 {
		t.Errorf("%d lines", count)
	}
}

// play carries out a line, and says what was answered.
func play(m *Machine, words []string) string {
	if words[0] == "get" {
		value, found := m.Get(words[1])
		if !found {
			return "nothing"
		}
		return string(value)
	}
	index, _ := strconv.ParseUint(words[0], 10, 64)
	kinds := map[string]Kind{"put": Put, "delete": Delete, "begin": Begin}
	c := Command{Kind: kinds[words[1]], Origin: Origin{7, index}}
	if c.Kind != Begin {
		c.Key = words[2]
	}
	if c.Kind == Put {
		c.Value = []byte(words[3])
	}
	if len(words) == 6 {
		c.Session, _ = strconv.ParseUint(words[4], 10, 64)
		c.Number, _ = strconv.ParseUint(words[5], 10, 64)
	}
	decoded, err := Decode(c.Encode())
	if err != nil || fmt.Sprint(decoded) != fmt.Sprint(c) {
		return fmt.Sprintf("%v was read as %v: %v", c, decoded, err)
	}
	r := m.Apply(index, decoded)
	switch {
	case r.Outcome == Stale:
		return "stale"
	case r.Outcome == NoSession:
		return "no-session"
	case c.Kind == Begin:
		return fmt.Sprint("done ", r.Index)
	case r.Found:
		return fmt.Sprintf("done %d found", r.Index)
	}
	return fmt.Sprintf("done %d new", r.Index)
}

func restored(t *testing.T, m *Machine) *Machine {
	t.Helper()
	snapshot := m.Snapshot()
	again, err := Restore(snapshot)
	if err != nil {
		t.Fatal(err)
	}
	if !bytes.Equal(again.Snapshot(), snapshot) || again.Size() != m.Size() {
		t.Fatal("what was restored isn't equal")
	}
	return again
}

// The session that was used least lately goes first, and its writes are refused.
func TestOldSessions(t *testing.T) {
	m := New()
	index := uint64(0)
	next := func(c Command) Result {
		index++
		return m.Apply(index, c)
	}
	for i := 0; i < MaxSessions; i++ {
		next(Command{Kind: Begin})
	}
	put := func(session uint64) Outcome {
		return next(Command{Kind: Put, Key: "a", Session: session, Number: 1}).Outcome
	}
	if put(1) != Done {
		t.Fatal("the first session is gone")
	}
	next(Command{Kind: Begin})
	m = restored(t, m)
	if put(2) != NoSession || put(1) != Done || put(3) != Done {
		t.Fatal("another one than the oldest is gone")
	}
}

// Bytes that are cut short anywhere, or have one more, are refused.
func TestBrokenBytes(t *testing.T) {
	m := New()
	m.Apply(1, Command{Kind: Begin})
	m.Apply(2, Command{Kind: Put, Key: "key", Value: []byte("value"), Session: 1, Number: 1})
	snapshot := m.Snapshot()
	for size := 1; size < len(snapshot); size++ {
		if _, err := Restore(snapshot[:size]); err == nil {
			t.Errorf("%d of %d bytes were taken", size, len(snapshot))
		}
	}
	if _, err := Restore(append(snapshot, 0)); err == nil {
		t.Error("one more byte was taken")
	}
	entry := Command{Kind: Put, Key: "key"}.Encode()
	for size := 0; size < len(entry); size++ {
		if _, err := Decode(entry[:size]); err == nil {
			t.Errorf("%d of %d bytes were taken", size, len(entry))
		}
	}
}
