package raftlog

// #include <stdlib.h>
// #include <raftlog.h>
//
// void raftlogTell(void *with, uint64_t done, uint64_t all);
import "C"

import (
	"runtime/cgo"
	"unsafe"
)

// OpenWatched opens a log as Open does, and watch is told how far it is, with each file: of so many bytes,
// so many are read. Once all are, they are replayed, which takes as long again.
func OpenWatched(folder, settings string, watch func(done, all uint64)) (*Engine, error) {
	path := C.CString(folder)
	defer C.free(unsafe.Pointer(path))
	told := cgo.NewHandle(watch)
	defer told.Delete()
	return open(settings, func(settings *C.char, out **C.raftlog, text *C.char, room C.size_t) C.int {
		tell := (*C.raftlog_progress)(C.raftlogTell)
		return C.raftlog_open_watched(path, settings, tell, unsafe.Pointer(&told), out, text, room)
	})
}

// raftlogTell is what C calls, with the address of the handle of a watch.
//
//export raftlogTell
func raftlogTell(with unsafe.Pointer, done, all C.uint64_t) {
	watch := (*(*cgo.Handle)(with)).Value().(func(done, all uint64))
	watch(uint64(done), uint64(all))
}

// SurviveBusErrors, called once for the process, lets a read return an error if a part of a log file can't be read again: the
// disk fails, or another program cut the file. By default the process ends by SIGBUS then. After this call a read that needs
// the part fails as Corruption, and an opening that needs it fails as IO.
func SurviveBusErrors() error {
	if code := C.raftlog_survive_bus_errors(); code != 0 {
		return &Error{Code(code), Code(code).String()}
	}
	return nil
}

// ExpectReads says how entries that are no longer in memory will be read. In order, the default: with each read the system reads
// ahead, as far as the disk's read_ahead_kb says. At random: one read of no more than is asked for.
func (e *Engine) ExpectReads(atRandom bool) error {
	c, _, err := e.do(func(log *C.raftlog, c *call) C.int {
		return C.raftlog_expect_reads(log, C.bool(atRandom))
	})
	defer c.end()
	return err
}
