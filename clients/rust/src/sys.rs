//! `raftlog.h`.
#![allow(non_camel_case_types)]
use std::ffi::{c_char, c_int, c_void};

#[repr(C)]
pub struct raftlog {
    _private: [u8; 0],
}

#[repr(C)]
pub struct raftlog_slice {
    pub data: *const u8,
    pub len: usize,
}

#[repr(C)]
pub struct raftlog_bytes {
    pub data: *mut u8,
    pub len: usize,
    pub room: usize,
}

#[repr(C)]
#[derive(Default)]
pub struct raftlog_counts {
    pub rounds: u64,
    pub changes: u64,
    pub synced_changes: u64,
    pub largest_round: u64,
    pub syncs: u64,
    pub bytes: u64,
    pub sync_ns: u64,
    pub batches: u64,
    pub writes: u64,
    pub longest_sync_ns: u64,
    pub sync_times: [u64; RAFTLOG_TIMES],
    pub next_files: u64,
    pub recycled_files: u64,
    pub deleted_files: u64,
    pub purges: u64,
    pub purge_ns: u64,
    pub longest_purge_ns: u64,
    pub files: u64,
    pub index_bytes: u64,
    pub block_hits: u64,
    pub block_misses: u64,
}

pub const RAFTLOG_TIMES: usize = 24;

#[repr(C)]
pub struct raftlog_cut {
    pub path: *const c_char,
    pub offset: u64,
    pub len: u64,
    pub stale: bool,
}

#[repr(C)]
pub struct raftlog_lost {
    pub kind: c_int,
    pub is_rewrite: bool,
    pub first: u64,
    pub last: u64,
}

pub type raftlog_progress = unsafe extern "C" fn(with: *mut c_void, done: u64, all: u64);

extern "C" {
    pub fn raftlog_bytes_free(bytes: *mut raftlog_bytes);
    pub fn raftlog_open(folder: *const c_char, settings: *const c_char, out: *mut *mut raftlog, text: *mut c_char, room: usize) -> c_int;
    pub fn raftlog_open_watched(
        folder: *const c_char,
        settings: *const c_char,
        watch: Option<raftlog_progress>,
        with: *mut c_void,
        out: *mut *mut raftlog,
        text: *mut c_char,
        room: usize,
    ) -> c_int;
    pub fn raftlog_open_whole(folder: *const c_char, settings: *const c_char, out: *mut *mut raftlog, text: *mut c_char, room: usize) -> c_int;
    pub fn raftlog_accept_missing(folder: *const c_char, text: *mut c_char, room: usize) -> c_int;
    pub fn raftlog_missing(log: *mut raftlog, lost: *mut raftlog_lost, room: usize, size: usize) -> usize;
    pub fn raftlog_open_memory(settings: *const c_char, out: *mut *mut raftlog, text: *mut c_char, room: usize) -> c_int;
    pub fn raftlog_close(log: *mut raftlog) -> c_int;
    pub fn raftlog_stats(log: *mut raftlog, counts: *mut raftlog_counts, size: usize) -> c_int;
    pub fn raftlog_cuts(log: *mut raftlog, cuts: *mut raftlog_cut, room: usize, size: usize) -> usize;
    pub fn raftlog_survive_bus_errors() -> c_int;
    pub fn raftlog_expect_reads(log: *mut raftlog, at_random: bool) -> c_int;
    pub fn raftlog_message(log: *mut raftlog, text: *mut c_char, room: usize) -> usize;
    pub fn raftlog_code_text(code: c_int) -> *const c_char;
    pub fn raftlog_write_bytes(log: *mut raftlog, bytes: *const c_void, len: usize, sync: bool) -> c_int;
    pub fn raftlog_write_once_bytes(log: *mut raftlog, bytes: *const c_void, len: usize, groups: *const u64, numbers: *const u64, count: usize, sync: bool) -> c_int;
    pub fn raftlog_sync(log: *mut raftlog) -> c_int;
    pub fn raftlog_get(log: *mut raftlog, group: u64, key: *const c_void, key_len: usize, value: *mut raftlog_bytes) -> c_int;
    pub fn raftlog_get_entry(log: *mut raftlog, group: u64, index: u64, value: *mut raftlog_bytes) -> c_int;
    pub fn raftlog_fetch_entries(log: *mut raftlog, group: u64, begin: u64, end: u64, max_size: u64, entries: *mut raftlog_bytes) -> c_int;
    pub fn raftlog_first_index(log: *mut raftlog, group: u64, index: *mut u64) -> c_int;
    pub fn raftlog_last_index(log: *mut raftlog, group: u64, index: *mut u64) -> c_int;
    pub fn raftlog_compact_to(log: *mut raftlog, group: u64, index: u64, count: *mut u64) -> c_int;
    pub fn raftlog_must_rewrite_append_queue(log: *mut raftlog, count: *mut u64) -> c_int;
    pub fn raftlog_must_rewrite_append_groups(log: *mut raftlog, watermark: *mut u64, group: *mut u64, budget: u64) -> c_int;
    pub fn raftlog_must_rewrite_rewrite_groups(log: *mut raftlog, group: *mut u64, budget: u64) -> c_int;
    pub fn raftlog_must_rewrite_rewrite_queue(log: *mut raftlog, count: *mut u64) -> c_int;
    pub fn raftlog_must_purge_all_stale(log: *mut raftlog, count: *mut u64) -> c_int;
    pub fn raftlog_purge_expired_files(log: *mut raftlog, groups: *mut raftlog_bytes) -> c_int;
    pub fn raftlog_purge_in_short_calls(log: *mut raftlog, budget: u64, groups: *mut raftlog_bytes) -> c_int;
    pub fn raftlog_append_rewrite_watermark(log: *mut raftlog, watermark: *mut u64) -> c_int;
    pub fn raftlog_scan(log: *mut raftlog, group: u64, start: *const raftlog_slice, end: *const raftlog_slice, reverse: bool, limit: u64, pairs: *mut raftlog_bytes) -> c_int;
    pub fn raftlog_groups(log: *mut raftlog, groups: *mut raftlog_bytes) -> c_int;
}
