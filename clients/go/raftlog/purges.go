package raftlog

// #include "told.h"
//
// static int purge_expired_files(raftlog *log, raftlog_bytes *out, char **text) {
//     return told(log, raftlog_purge_expired_files(log, out), text);
// }
// static int purge_in_short_calls(raftlog *log, uint64_t budget, raftlog_bytes *out, char **text) {
//     return told(log, raftlog_purge_in_short_calls(log, budget, out), text);
// }
// static int append_rewrite_watermark(raftlog *log, uint64_t *watermark, char **text) {
//     return told(log, raftlog_append_rewrite_watermark(log, watermark), text);
// }
// static int must_rewrite_append_queue(raftlog *log, uint64_t *count, char **text) {
//     return told(log, raftlog_must_rewrite_append_queue(log, count), text);
// }
// static int must_rewrite_append_groups(raftlog *log, uint64_t *watermark, uint64_t *group, uint64_t budget, char **text) {
//     return told(log, raftlog_must_rewrite_append_groups(log, watermark, group, budget), text);
// }
// static int must_rewrite_rewrite_groups(raftlog *log, uint64_t *group, uint64_t budget, char **text) {
//     return told(log, raftlog_must_rewrite_rewrite_groups(log, group, budget), text);
// }
// static int must_rewrite_rewrite_queue(raftlog *log, uint64_t *count, char **text) {
//     return told(log, raftlog_must_rewrite_rewrite_queue(log, count), text);
// }
// static int must_purge_all_stale(raftlog *log, uint64_t *count, char **text) {
//     return told(log, raftlog_must_purge_all_stale(log, count), text);
// }
import "C"

// PurgeInShortCalls purges by the settings' thresholds: call it every few seconds. It writes again what old files still
// have, and drops these files; while the log is small it does nothing. It returns the groups that have many old entries:
// compact them. The log's contents stay as they are. Other goroutines read and write between its calls. Each call writes
// at most budget bytes, or one group that has more; 1 MB is a good budget. The last call has no such limit: it writes
// again what has become due meanwhile, and drops the files.
func (e *Engine) PurgeInShortCalls(budget uint64) ([]uint64, error) {
	return e.numbers(func(log *C.raftlog, c *call) C.int {
		return C.purge_in_short_calls(log, C.uint64_t(budget), &c.bytes, &c.text)
	})
}

// PurgeExpiredFiles does the same in one call, for which all other calls wait. It differs in one thing: it writes the old
// entries of a group that it returns only in the tenth purge.
func (e *Engine) PurgeExpiredFiles() ([]uint64, error) {
	return e.numbers(func(log *C.raftlog, c *call) C.int {
		return C.purge_expired_files(log, &c.bytes, &c.text)
	})
}

// AppendRewriteWatermark returns the number of the last file of the Append queue that these two would write again now, and
// false if they would write none. It is the watermark for a series of MustRewriteAppendGroups.
func (e *Engine) AppendRewriteWatermark() (watermark uint64, isDue bool, err error) {
	c, isDue, err := e.do(func(log *C.raftlog, c *call) C.int {
		return C.append_rewrite_watermark(log, &c.first, &c.text)
	})
	defer c.end()
	if isDue {
		watermark = uint64(c.first)
	}
	return watermark, isDue, err
}

// MustRewriteAppendQueue writes what the Append queue's log files have to the Rewrite queue, drops these files, and returns
// how many they were.
func (e *Engine) MustRewriteAppendQueue() (uint64, error) {
	return e.counted(func(log *C.raftlog, c *call) C.int {
		return C.must_rewrite_append_queue(log, &c.first, &c.text)
	})
}

// MustRewriteAppendGroups is one of a series of short calls, between which others read and write. It writes what the groups
// from one on have in the Append queue's files up to the number watermark to the Rewrite queue: of as many groups as cost at
// most budget bytes together, but of one at least. A group costs 64 bytes, and what it has there. It returns the watermark
// and the group for the next call, 0 after the last one. Begin with math.MaxUint64, which means the last file, and 0.
// MustPurgeAllStale then drops the files.
func (e *Engine) MustRewriteAppendGroups(watermark, group, budget uint64) (uint64, uint64, error) {
	c, _, err := e.do(func(log *C.raftlog, c *call) C.int {
		c.first, c.last = C.uint64_t(watermark), C.uint64_t(group)
		return C.must_rewrite_append_groups(log, &c.first, &c.last, C.uint64_t(budget), &c.text)
	})
	defer c.end()
	if err != nil {
		return watermark, group, err
	}
	return uint64(c.first), uint64(c.last), nil
}

// MustRewriteRewriteGroups is one of a series of short calls, between which others read and write. It writes what the
// groups from one on have in the Rewrite queue's files to new files of it: of as many groups as cost at most budget bytes
// together, but of one at least. A group costs 64 bytes, and what it has there. It returns the group for the next call.
// Begin with 0; it returns 0 after the last call, which drops the old files. An opening or another purge ends the series,
// and an error may: then begin again with 0.
func (e *Engine) MustRewriteRewriteGroups(group, budget uint64) (uint64, error) {
	c, _, err := e.do(func(log *C.raftlog, c *call) C.int {
		c.first = C.uint64_t(group)
		return C.must_rewrite_rewrite_groups(log, &c.first, C.uint64_t(budget), &c.text)
	})
	defer c.end()
	if err != nil {
		return group, err
	}
	return uint64(c.first), nil
}

// MustRewriteRewriteQueue writes what the Rewrite queue's log files have to a new one, drops these files, and returns how
// many they were.
func (e *Engine) MustRewriteRewriteQueue() (uint64, error) {
	return e.counted(func(log *C.raftlog, c *call) C.int {
		return C.must_rewrite_rewrite_queue(log, &c.first, &c.text)
	})
}

// MustPurgeAllStale drops the first log files of both queues that contain nothing any more. It returns how many of the
// Append queue it dropped.
func (e *Engine) MustPurgeAllStale() (uint64, error) {
	return e.counted(func(log *C.raftlog, c *call) C.int {
		return C.must_purge_all_stale(log, &c.first, &c.text)
	})
}
