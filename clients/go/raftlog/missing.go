package raftlog

// #include <stdlib.h>
// #include <raftlog.h>
import "C"

import "unsafe"

// A LossKind says what is known of files of some numbers.
type LossKind int

const (
	FileMissing LossKind = C.RAFTLOG_FILE_MISSING // they are needed and do not exist: what they contained is lost
	FileStray   LossKind = C.RAFTLOG_FILE_STRAY   // one exists, and does not follow on the log's files
	NoteStale   LossKind = C.RAFTLOG_NOTE_STALE   // another program wrote to the log since: not known
	LostBefore  LossKind = C.RAFTLOG_LOST_BEFORE  // one was missing at an earlier opening: the numbers are the note's
)

// A Loss is what an opening found by the log's note of its files' numbers.
type Loss struct {
	Kind        LossKind
	IsRewrite   bool   // of the Rewrite queue, else of the Append queue
	First, Last uint64 // the least and the greatest number
}

// OpenWhole opens a log as Open does, but fails as Lost if a file is missing or was, or is a stray. It has changed no
// log file then.
func OpenWhole(folder, settings string) (*Engine, error) {
	path := C.CString(folder)
	defer C.free(unsafe.Pointer(path))
	return open(settings, func(settings *C.char, out **C.raftlog, text *C.char, room C.size_t) C.int {
		return C.raftlog_open_whole(path, settings, out, text, room)
	})
}

// AcceptMissing accepts what is missing in a folder that nobody has open: the note then has the files after the last
// gap, and Missing reports what is lost after that. Put files back before: one that is put back after is read, but its
// loss is not noticed.
func AcceptMissing(folder string) error {
	path := C.CString(folder)
	defer C.free(unsafe.Pointer(path))
	var text [512]C.char
	if code := C.raftlog_accept_missing(path, &text[0], 512); code != 0 {
		return &Error{Code(code), C.GoString(&text[0])}
	}
	return nil
}

// Missing returns the log files that the opening found to be missing or strays. After a crash or a kill there are none.
// Later openings report them too, until the files are put back or AcceptMissing accepts the loss; raftlog.h has the
// details.
func (e *Engine) Missing() ([]Loss, error) {
	e.mutex.RLock()
	defer e.mutex.RUnlock()
	if e.log == nil {
		return nil, &Error{Failed, "the log is closed"}
	}
	found := make([]C.raftlog_lost, C.raftlog_missing(e.log, nil, 0, 0)+1)
	losses := make([]Loss, C.raftlog_missing(e.log, &found[0], C.size_t(len(found)), C.sizeof_raftlog_lost))
	for i := range losses {
		lost := &found[i]
		losses[i] = Loss{LossKind(lost.kind), bool(lost.is_rewrite), uint64(lost.first), uint64(lost.last)}
	}
	return losses, nil
}
