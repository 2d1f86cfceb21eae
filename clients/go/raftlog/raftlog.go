// Package raftlog is a log for many Raft groups in a folder, whose engine is proved in Rattle. It calls libraftlog:
// clients/c/build/libraftlog.a of the checkout, or with the build tag raftlog_installed the installed one, by pkg-config.
package raftlog

// #include "told.h"
//
// static int write_bytes(raftlog *log, const void *bytes, size_t len, bool sync, char **text) {
//     return told(log, raftlog_write_bytes(log, bytes, len, sync), text);
// }
// static int write_once(raftlog *log, const void *bytes, size_t len, const uint64_t *groups,
//                       const uint64_t *numbers, size_t count, bool sync, char **text) {
//     return told(log, raftlog_write_once_bytes(log, bytes, len, groups, numbers, count, sync), text);
// }
// static int sync_all(raftlog *log, char **text) { return told(log, raftlog_sync(log), text); }
// static int get(raftlog *log, uint64_t group, const void *key, size_t len, raftlog_bytes *out, char **text) {
//     return told(log, raftlog_get(log, group, key, len, out), text);
// }
// static int get_entry(raftlog *log, uint64_t group, uint64_t index, raftlog_bytes *out, char **text) {
//     return told(log, raftlog_get_entry(log, group, index, out), text);
// }
// static int fetch(raftlog *log, uint64_t group, uint64_t begin, uint64_t end, uint64_t max_size,
//                  raftlog_bytes *out, char **text) {
//     return told(log, raftlog_fetch_entries(log, group, begin, end, max_size, out), text);
// }
// static int span(raftlog *log, uint64_t group, uint64_t *first, uint64_t *last, char **text) {
//     int code = raftlog_first_index(log, group, first);
//     if (code == RAFTLOG_OK) code = raftlog_last_index(log, group, last);
//     return told(log, code, text);
// }
// static int compact_to(raftlog *log, uint64_t group, uint64_t index, uint64_t *count, char **text) {
//     return told(log, raftlog_compact_to(log, group, index, count), text);
// }
// static int scan(raftlog *log, uint64_t group, const raftlog_slice *start, const raftlog_slice *end,
//                 bool reverse, uint64_t limit, raftlog_bytes *out, char **text) {
//     return told(log, raftlog_scan(log, group, start, end, reverse, limit, out), text);
// }
// static int groups(raftlog *log, raftlog_bytes *out, char **text) {
//     return told(log, raftlog_groups(log, out), text);
// }
import "C"

import (
	"encoding/binary"
	"errors"
	"fmt"
	"runtime"
	"sync"
	"time"
	"unsafe"
)

// A Code says why a call failed. GO.md, "Errors", says what to do.
type Code int

const (
	Invalid    Code = 1  // an argument, a setting or a key is refused; nothing was changed
	Corruption Code = 2  // a log file can't be read, and the recovery mode doesn't tolerate it: raftctl FOLDER check
	IO         Code = 3  // a file call failed; after a change the log has failed
	TryAgain   Code = 4  // no space: a write can be made again, after a purge the log has failed (in a folder it is IO)
	Gap        Code = 5  // the entries don't follow those of their group; nothing was changed
	Range      Code = 6  // an index of 2^64 - 1, a record that is too long, or no number left for a next file
	Compacted  Code = 7  // a fetch begins before the group's first entry
	NoEntry    Code = 8  // a fetch ends after the group's last entry
	WrongIndex Code = 9  // the stored bytes are the entry of another index
	NotAnEntry Code = 10 // the stored bytes are too short for an entry
	Failed     Code = 11 // the log failed in an earlier call: close it, and open its folder again
	NoMemory   Code = 12 // out of memory; after a change the log may have failed
	LZ4        Code = 13 // the log has a compressed record, which can't be read
	Stale      Code = 18 // some numbers of a WriteOnce are greater than those that their groups keep, and others aren't
	absent     Code = 20
	InUse      Code = 30 // the folder is open already; the message names the process
	NotPlain   Code = 31 // a log file's name belongs to a link, a folder, a device or a file with several names
	Folder     Code = 32 // the folder can't be made, locked or read
	Lost       Code = 33 // a log file is missing or was, or isn't the log's (OpenWhole)
)

// An Error is the failure of a call. Its message names the file and the system's cause, if a file call failed.
type Error struct {
	Code    Code
	Message string
}

func (e *Error) Error() string { return "raftlog: " + e.Message }

// HasCode says whether the error is one of this package with this code, or wraps one.
func HasCode(err error, code Code) bool {
	var e *Error
	return errors.As(err, &e) && e.Code == code
}

// An Entry is an index and its bytes.
type Entry struct {
	Index uint64
	Data  []byte
}

// A Pair is a key and its value.
type Pair struct{ Key, Value []byte }

// An Engine is an open log. Many goroutines may use it. Goroutines that write at the same time share a sync, and a read
// waits only for writes to its group (raftlog.h, "Rounds").
type Engine struct {
	mutex sync.RWMutex // held by each call to read, and by Close to write
	log   *C.raftlog
}

// Open opens the log in a folder; a missing folder is made. The settings are TOML, for example
// `target-file-size = "64MB"`. Each that isn't given has its default, and so have all for "".
func Open(folder, settings string) (*Engine, error) {
	path := C.CString(folder)
	defer C.free(unsafe.Pointer(path))
	return open(settings, func(settings *C.char, out **C.raftlog, text *C.char, room C.size_t) C.int {
		return C.raftlog_open(path, settings, out, text, room)
	})
}

// OpenMemory opens a log in memory, for tests.
func OpenMemory(settings string) (*Engine, error) {
	return open(settings, func(settings *C.char, out **C.raftlog, text *C.char, room C.size_t) C.int {
		return C.raftlog_open_memory(settings, out, text, room)
	})
}

func open(settings string, call func(*C.char, **C.raftlog, *C.char, C.size_t) C.int) (*Engine, error) {
	given := C.CString(settings)
	defer C.free(unsafe.Pointer(given))
	var text [512]C.char
	var log *C.raftlog
	if code := call(given, &log, &text[0], 512); code != 0 {
		message := C.GoString(&text[0])
		if message == "" {
			message = C.GoString(C.raftlog_code_text(code))
		}
		return nil, &Error{Code(code), message}
	}
	return &Engine{log: log}, nil
}

// A call has what C writes its results to. It is kept for a next call, with the memory that C reserved.
type call struct {
	bytes C.raftlog_bytes
	text  *C.char
	first C.uint64_t
	last  C.uint64_t
}

var calls = sync.Pool{New: func() any {
	c := new(call)
	runtime.SetFinalizer(c, func(c *call) { C.raftlog_bytes_free(&c.bytes) })
	return c
}}

// do makes a call on the log, and returns whether the requested value exists. The caller ends the call by end.
func (e *Engine) do(code func(log *C.raftlog, c *call) C.int) (*call, bool, error) {
	c := calls.Get().(*call)
	e.mutex.RLock()
	defer e.mutex.RUnlock()
	if e.log == nil {
		return c, false, &Error{Failed, "the log is closed"}
	}
	switch code := code(e.log, c); code {
	case 0:
		return c, true, nil
	case C.int(absent):
		return c, false, nil
	default:
		return c, false, c.failure(code)
	}
}

func (c *call) end() { calls.Put(c) }

func (c *call) failure(code C.int) error {
	if c.text == nil {
		return &Error{Code(code), Code(code).String()}
	}
	defer func() { C.free(unsafe.Pointer(c.text)); c.text = nil }()
	return &Error{Code(code), C.GoString(c.text)}
}

// answer returns a copy of the result's bytes.
func (c *call) answer() []byte {
	copied := make([]byte, c.bytes.len)
	copy(copied, unsafe.Slice((*byte)(c.bytes.data), c.bytes.len))
	return copied
}

var empty = [1]byte{}

func pointer(bytes []byte) unsafe.Pointer {
	if len(bytes) == 0 {
		return unsafe.Pointer(&empty[0])
	}
	return unsafe.Pointer(&bytes[0])
}

// Close waits until the calls that run have returned, then syncs and closes. Without an error all that was written survives a
// crash. It may be called again.
func (e *Engine) Close() error {
	e.mutex.Lock()
	defer e.mutex.Unlock()
	if e.log == nil {
		return nil
	}
	log := e.log
	e.log = nil
	if code := C.raftlog_close(log); code != 0 {
		return &Error{Code(code), Code(code).String()}
	}
	return nil
}

// Write writes a batch, and empties it if that is done; else the batch is as it was. With sync the batch survives a crash when
// Write has returned, with all that was written before it; without sync it does after the next sync.
func (e *Engine) Write(batch *Batch, sync bool) error {
	bytes := batch.whole()
	c, _, err := e.do(func(log *C.raftlog, c *call) C.int {
		return C.write_bytes(log, pointer(bytes), C.size_t(len(bytes)), C.bool(sync), &c.text)
	})
	defer c.end()
	if err == nil {
		batch.Clear()
	}
	return err
}

// A Number is a group, and the number of a write that acts on it once.
type Number struct{ Group, Number uint64 }

// WriteOnce writes a batch that acts once, however often it is written. With it each of these groups gets its number. Each
// number must be greater than the one that its group keeps; a group that keeps none counts as 0. If none of the numbers is
// greater, the batch was written before: nothing is written, and there is no error. If some are greater and others aren't,
// it fails as Stale.
func (e *Engine) WriteOnce(batch *Batch, numbers []Number, sync bool) error {
	groups, values := make([]C.uint64_t, len(numbers)+1), make([]C.uint64_t, len(numbers)+1)
	for i, n := range numbers {
		groups[i], values[i] = C.uint64_t(n.Group), C.uint64_t(n.Number)
	}
	bytes := batch.whole()
	c, _, err := e.do(func(log *C.raftlog, c *call) C.int {
		return C.write_once(log, pointer(bytes), C.size_t(len(bytes)), &groups[0], &values[0],
			C.size_t(len(numbers)), C.bool(sync), &c.text)
	})
	defer c.end()
	if err == nil {
		batch.Clear()
	}
	return err
}

// Sync syncs: after it all that was written survives a crash.
func (e *Engine) Sync() error {
	c, _, err := e.do(func(log *C.raftlog, c *call) C.int { return C.sync_all(log, &c.text) })
	defer c.end()
	return err
}

// Stats is what a log has done since it was opened, in rounds that are over. On average Changes / Rounds changes share a
// round, and a sync takes SyncTime / Syncs. A purge and a next file have syncs of their own; without these
// SyncedChanges / Syncs changes share a sync.
type Stats struct {
	Rounds        uint64
	Changes       uint64        // writes, syncs, compactions and purges in these rounds
	SyncedChanges uint64        // changes that asked for a sync and were done
	LargestRound  uint64        // the most changes of a round
	Syncs         uint64        // syncs of log files, whoever asked for them
	Bytes         uint64        // bytes written to log files
	SyncTime      time.Duration // time of these syncs
	Batches       uint64        // writes that were done
	Writes        uint64        // calls of the system that wrote these bytes
	LongestSync   time.Duration
	SyncTimes     [SyncClasses]uint64 // syncs by classes: class i has those under SyncBound(i) that class i-1 hasn't
	NextFiles     uint64              // files that a queue has begun
	RecycledFiles uint64              // of these, files that were dropped or reserved before
	DeletedFiles  uint64
	Purges        uint64        // purge calls that were carried out, each short call too
	PurgeTime     time.Duration // time of these calls, without their wait for a round
	LongestPurge  time.Duration
	Files         uint64 // files in the folder now, reserved ones too; 0 in memory
	IndexBytes    uint64 // memory of the index now, without the bytes of keys and values
	BlockHits     uint64 // reads of an entry whose block was kept; the last 16 blocks are kept
	BlockMisses   uint64 // reads of an entry that had to read its block
}

// SyncClasses is how many classes of times Stats.SyncTimes has.
const SyncClasses = C.RAFTLOG_TIMES

// SyncBound returns the time under which a class of syncs stays; the last class has no bound.
func SyncBound(class int) time.Duration { return time.Microsecond << class }

// Stats returns what the log has done since it was opened.
func (e *Engine) Stats() (Stats, error) {
	e.mutex.RLock()
	defer e.mutex.RUnlock()
	var counts C.raftlog_counts
	if e.log == nil {
		return Stats{}, &Error{Failed, "the log is closed"}
	}
	if code := C.raftlog_stats(e.log, &counts, C.sizeof_raftlog_counts); code != 0 {
		return Stats{}, &Error{Code(code), Code(code).String()}
	}
	stats := Stats{
		Rounds: uint64(counts.rounds), Changes: uint64(counts.changes), SyncedChanges: uint64(counts.synced_changes),
		LargestRound: uint64(counts.largest_round), Syncs: uint64(counts.syncs), Bytes: uint64(counts.bytes),
		SyncTime: time.Duration(counts.sync_ns), Batches: uint64(counts.batches), Writes: uint64(counts.writes),
		LongestSync: time.Duration(counts.longest_sync_ns), NextFiles: uint64(counts.next_files),
		RecycledFiles: uint64(counts.recycled_files), DeletedFiles: uint64(counts.deleted_files),
		Purges: uint64(counts.purges), PurgeTime: time.Duration(counts.purge_ns),
		LongestPurge: time.Duration(counts.longest_purge_ns), Files: uint64(counts.files),
		IndexBytes: uint64(counts.index_bytes), BlockHits: uint64(counts.block_hits), BlockMisses: uint64(counts.block_misses),
	}
	for i, count := range counts.sync_times {
		stats.SyncTimes[i] = uint64(count)
	}
	return stats, nil
}

// A Cut is what the opening cut off a log file: so many bytes from an offset on, after the last record that can be read.
// Stale says that the first record in these bytes is an earlier file's, as usual after a kill if files are recycled.
type Cut struct {
	Path        string // of the file, from the folder
	Offset, Len uint64
	Stale       bool
}

// Cuts returns what the opening cut off, except zeros.
func (e *Engine) Cuts() ([]Cut, error) {
	e.mutex.RLock()
	defer e.mutex.RUnlock()
	if e.log == nil {
		return nil, &Error{Failed, "the log is closed"}
	}
	found := make([]C.raftlog_cut, C.raftlog_cuts(e.log, nil, 0, 0)+1)
	cuts := make([]Cut, C.raftlog_cuts(e.log, &found[0], C.size_t(len(found)), C.sizeof_raftlog_cut))
	for i := range cuts {
		cut := &found[i]
		cuts[i] = Cut{C.GoString(cut.path), uint64(cut.offset), uint64(cut.len), bool(cut.stale)}
	}
	return cuts, nil
}

// Get returns the value that a group has at a key.
func (e *Engine) Get(group uint64, key []byte) (value []byte, found bool, err error) {
	c, found, err := e.do(func(log *C.raftlog, c *call) C.int {
		return C.get(log, C.uint64_t(group), pointer(key), C.size_t(len(key)), &c.bytes, &c.text)
	})
	defer c.end()
	if found {
		value = c.answer()
	}
	return value, found, err
}

// GetEntry returns the bytes of a group's entry with an index.
func (e *Engine) GetEntry(group, index uint64) (data []byte, found bool, err error) {
	c, found, err := e.do(func(log *C.raftlog, c *call) C.int {
		return C.get_entry(log, C.uint64_t(group), C.uint64_t(index), &c.bytes, &c.text)
	})
	defer c.end()
	if found {
		data = c.answer()
	}
	return data, found, err
}

// FetchEntries returns the entries from begin up to the one before end: as many as take at most maxSize bytes together (each
// counts 8 bytes more than its own), but one at least. A maxSize of 0 is no bound.
func (e *Engine) FetchEntries(group, begin, end, maxSize uint64) ([]Entry, error) {
	c, _, err := e.do(func(log *C.raftlog, c *call) C.int {
		return C.fetch(log, C.uint64_t(group), C.uint64_t(begin), C.uint64_t(end), C.uint64_t(maxSize), &c.bytes, &c.text)
	})
	defer c.end()
	if err != nil {
		return nil, err
	}
	var entries []Entry
	for rest := c.answer(); len(rest) > 0; {
		entry, after := part(rest)
		entries = append(entries, Entry{binary.BigEndian.Uint64(entry), entry[8:]})
		rest = after
	}
	return entries, nil
}

func part(bytes []byte) (part, rest []byte) {
	end := 8 + binary.BigEndian.Uint64(bytes)
	return bytes[8:end:end], bytes[end:]
}

// Span returns the index of a group's first and of its last entry; found is false if it has no entries.
func (e *Engine) Span(group uint64) (first, last uint64, found bool, err error) {
	c, found, err := e.do(func(log *C.raftlog, c *call) C.int {
		return C.span(log, C.uint64_t(group), &c.first, &c.last, &c.text)
	})
	defer c.end()
	if found {
		first, last = uint64(c.first), uint64(c.last)
	}
	return first, last, found, err
}

// counted makes a call that returns a count.
func (e *Engine) counted(code func(log *C.raftlog, c *call) C.int) (uint64, error) {
	c, _, err := e.do(code)
	defer c.end()
	if err != nil {
		return 0, err
	}
	return uint64(c.first), nil
}

// CompactTo removes the entries below an index, without a sync, and returns how many they were.
func (e *Engine) CompactTo(group, index uint64) (uint64, error) {
	return e.counted(func(log *C.raftlog, c *call) C.int {
		return C.compact_to(log, C.uint64_t(group), C.uint64_t(index), &c.first, &c.text)
	})
}

// Scan returns the keys from start up to those before end with their values, in the order of the keys' bytes, or with reverse
// in the opposite order. A bound may be nil for none; a limit of 0 is none.
func (e *Engine) Scan(group uint64, start, end []byte, reverse bool, limit uint64) ([]Pair, error) {
	from, to := bound(start), bound(end)
	defer C.free(unsafe.Pointer(from))
	defer C.free(unsafe.Pointer(to))
	c, _, err := e.do(func(log *C.raftlog, c *call) C.int {
		return C.scan(log, C.uint64_t(group), from, to, C.bool(reverse), C.uint64_t(limit), &c.bytes, &c.text)
	})
	defer c.end()
	if err != nil {
		return nil, err
	}
	var pairs []Pair
	for rest := c.answer(); len(rest) > 0; {
		key, after := part(rest)
		value, after := part(after)
		pairs = append(pairs, Pair{key, value})
		rest = after
	}
	return pairs, nil
}

// bound returns a slice of C's, followed by its bytes: C may not get a pointer to a pointer of Go's.
func bound(key []byte) *C.raftlog_slice {
	if key == nil {
		return nil
	}
	size := C.size_t(unsafe.Sizeof(C.raftlog_slice{}))
	slice := (*C.raftlog_slice)(C.malloc(size + C.size_t(len(key)) + 1))
	data := unsafe.Pointer(uintptr(unsafe.Pointer(slice)) + uintptr(size))
	copy(unsafe.Slice((*byte)(data), len(key)), key)
	slice.data, slice.len = (*C.uint8_t)(data), C.size_t(len(key))
	return slice
}

// Groups returns the groups into which something was put since they were last cleaned, in order.
func (e *Engine) Groups() ([]uint64, error) {
	return e.numbers(func(log *C.raftlog, c *call) C.int { return C.groups(log, &c.bytes, &c.text) })
}

// numbers makes a call that returns numbers.
func (e *Engine) numbers(code func(log *C.raftlog, c *call) C.int) (numbers []uint64, err error) {
	c, _, err := e.do(code)
	defer c.end()
	if err != nil {
		return nil, err
	}
	for rest := c.answer(); len(rest) >= 8; rest = rest[8:] {
		numbers = append(numbers, binary.BigEndian.Uint64(rest))
	}
	return numbers, nil
}

// A Batch has changes that are written together: as a whole or not at all. Its bytes begin with the number of its items.
type Batch struct {
	bytes []byte
	count uint64
}

// Empty returns whether the batch has no items.
func (b *Batch) Empty() bool { return b.count == 0 }

// Clear removes all items, and keeps the memory for more.
func (b *Batch) Clear() { b.bytes, b.count = b.bytes[:0], 0 }

func (b *Batch) whole() []byte {
	if len(b.bytes) == 0 {
		b.number(0)
	}
	binary.BigEndian.PutUint64(b.bytes, b.count)
	return b.bytes
}

func (b *Batch) number(n uint64) {
	b.bytes = append(b.bytes, byte(n>>56), byte(n>>48), byte(n>>40), byte(n>>32), byte(n>>24), byte(n>>16), byte(n>>8), byte(n))
}

func (b *Batch) part(part []byte) {
	b.number(uint64(len(part)))
	b.bytes = append(b.bytes, part...)
}

func (b *Batch) head(kind byte, group uint64) {
	if len(b.bytes) == 0 {
		b.number(0)
	}
	b.count++
	b.bytes = append(b.bytes, kind)
	b.number(group)
}

// Put puts a value at a key. A key that begins with two underscores is refused when the batch is written.
func (b *Batch) Put(group uint64, key, value []byte) {
	b.head(1, group)
	b.part(key)
	b.part(value)
}

// Delete deletes a key.
func (b *Batch) Delete(group uint64, key []byte) {
	b.head(2, group)
	b.part(key)
}

// AddEntries adds entries with consecutive indexes. They replace the group's entries from the first index on. That the
// indexes follow those of the group is checked when the batch is written.
func (b *Batch) AddEntries(group uint64, entries []Entry) {
	if len(entries) == 0 {
		return
	}
	b.head(3, group)
	b.number(uint64(len(entries)))
	for _, entry := range entries {
		b.number(uint64(len(entry.Data)) + 8)
		b.number(entry.Index)
		b.bytes = append(b.bytes, entry.Data...)
	}
}

// Clean removes all entries and keys of a group.
func (b *Batch) Clean(group uint64) { b.head(4, group) }

// Compact removes the entries below an index.
func (b *Batch) Compact(group, index uint64) {
	b.head(5, group)
	b.number(index)
}

func (c Code) String() string { return fmt.Sprint(C.GoString(C.raftlog_code_text(C.int(c)))) }
