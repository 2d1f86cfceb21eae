//! A log for many Raft groups, in a folder. Batches of entries, keys and values are appended to one shared log, synced on
//! request, and found again after a crash. The engine is proved in Rattle; this crate only calls it. `raftlog.h` says what
//! is trusted.
//!
//! ```
//! let log = raftlog::Engine::open_memory("")?;
//! let mut batch = raftlog::LogBatch::new();
//! batch.put(1, b"state", b"follower").add_entries(1, [(1, b"one".as_slice()), (2, b"two")]);
//! log.write(&mut batch, true)?;
//! assert_eq!(log.get(1, b"state")?.as_deref(), Some(b"follower".as_slice()));
//! assert_eq!(log.fetch_entries(1, 1, 3, None)?.len(), 2);
//! # Ok::<(), raftlog::Error>(())
//! ```
mod sys;

use std::ffi::{c_char, c_int, c_void, CStr, CString, OsStr};
use std::fmt;
use std::os::unix::ffi::OsStrExt;
use std::panic::{catch_unwind, resume_unwind, AssertUnwindSafe};
use std::path::{Path, PathBuf};
use std::ptr;
use std::time::Duration;

/// Why a call failed. `clients/RUST.md`, "Errors", says what to do.
#[derive(Clone, Copy, Debug, PartialEq, Eq)]
#[non_exhaustive]
pub enum Code {
    /// An argument, a setting or a key is refused. Nothing was changed.
    Invalid,
    /// A log file can't be read, and the recovery mode doesn't tolerate it. `raftctl FOLDER check` shows where.
    Corruption,
    /// A file call failed; the message has the file and the cause. After a change the log has failed.
    Io,
    /// There was no space. A write can be made again; after a purge the log has failed. In a folder this is `Io`.
    TryAgain,
    /// The entries don't follow those of their group. Nothing was changed.
    Gap,
    /// An index of 2^64 - 1, a record that is too long, or no number is left for a next file.
    Range,
    /// A fetch begins before the group's first entry.
    Compacted,
    /// A fetch ends after the group's last entry.
    NoEntry,
    /// The stored bytes are the entry of another index.
    WrongIndex,
    /// The stored bytes are too short for an entry.
    NotAnEntry,
    /// The log failed in an earlier call: drop it, and open its folder again.
    Failed,
    /// Out of memory. After a change the log may have failed.
    NoMemory,
    /// The log has a compressed record, which can't be read.
    Lz4,
    /// Some numbers of a `write_once` are greater than those that their groups keep, and others aren't.
    StaleNumber,
    /// The folder is open already; the message names the process.
    InUse,
    /// A log file's name belongs to a link, a folder, a device or a file with several names.
    NotPlain,
    /// The folder can't be made, locked or read; the message has the cause.
    Folder,
    /// A log file is missing or was, or isn't the log's (`Engine::open_whole`).
    Lost,
    /// A code of a later version.
    Other(i32),
}

impl Code {
    fn of(code: c_int) -> Code {
        match code {
            1 => Code::Invalid,
            2 => Code::Corruption,
            3 => Code::Io,
            4 => Code::TryAgain,
            5 => Code::Gap,
            6 => Code::Range,
            7 => Code::Compacted,
            8 => Code::NoEntry,
            9 => Code::WrongIndex,
            10 => Code::NotAnEntry,
            11 => Code::Failed,
            12 => Code::NoMemory,
            13 => Code::Lz4,
            18 => Code::StaleNumber,
            30 => Code::InUse,
            31 => Code::NotPlain,
            32 => Code::Folder,
            33 => Code::Lost,
            code => Code::Other(code),
        }
    }
}

/// Why a call failed, for a program and for a reader.
#[derive(Clone, Debug, PartialEq, Eq)]
pub struct Error {
    pub code: Code,
    pub message: String,
}

impl Error {
    fn invalid(message: &str) -> Error {
        Error { code: Code::Invalid, message: message.into() }
    }

    // The text that C wrote, which ends with a NUL, or the code's own text if C wrote none.
    fn told(code: c_int, text: &[u8]) -> Error {
        let found = CStr::from_bytes_until_nul(text).map_or(String::new(), |t| t.to_string_lossy().into_owned());
        let message = if found.is_empty() { code_text(code) } else { found };
        Error { code: Code::of(code), message }
    }
}

impl fmt::Display for Error {
    fn fmt(&self, f: &mut fmt::Formatter<'_>) -> fmt::Result {
        f.write_str(&self.message)
    }
}

impl std::error::Error for Error {}

/// A result with this crate's error.
pub type Result<T> = std::result::Result<T, Error>;

const OK: c_int = 0;
const ABSENT: c_int = 20;

fn code_text(code: c_int) -> String {
    unsafe { CStr::from_ptr(sys::raftlog_code_text(code)) }.to_string_lossy().into_owned()
}

// The bytes of a batch without items: their number.
const NO_ITEMS: [u8; 8] = [0; 8];

/// Changes that are written together: as a whole or not at all.
#[derive(Clone, Debug)]
pub struct LogBatch {
    bytes: Vec<u8>,
    count: u64,
}

impl Default for LogBatch {
    fn default() -> LogBatch {
        LogBatch { bytes: NO_ITEMS.to_vec(), count: 0 }
    }
}

impl LogBatch {
    /// A batch without changes.
    pub fn new() -> LogBatch {
        LogBatch::default()
    }

    /// Whether it has no changes.
    pub fn is_empty(&self) -> bool {
        self.count == 0
    }

    /// Removes all changes, and keeps the memory for more.
    pub fn clear(&mut self) {
        self.bytes.truncate(8);
        self.count(0);
    }

    fn count(&mut self, count: u64) {
        self.count = count;
        self.bytes[..8].copy_from_slice(&count.to_be_bytes());
    }

    fn number(&mut self, number: u64) {
        self.bytes.extend_from_slice(&number.to_be_bytes());
    }

    fn part(&mut self, part: &[u8]) {
        self.number(part.len() as u64);
        self.bytes.extend_from_slice(part);
    }

    fn head(&mut self, kind: u8, group: u64) {
        self.bytes.push(kind);
        self.number(group);
        self.count(self.count + 1);
    }

    /// Puts a value at a key. A key that begins with two underscores is refused when the batch is written.
    pub fn put(&mut self, group: u64, key: &[u8], value: &[u8]) -> &mut LogBatch {
        self.head(1, group);
        self.part(key);
        self.part(value);
        self
    }

    /// Deletes a key.
    pub fn delete(&mut self, group: u64, key: &[u8]) -> &mut LogBatch {
        self.head(2, group);
        self.part(key);
        self
    }

    /// Adds entries with consecutive indexes. They replace the group's entries from the first index on. That the indexes
    /// follow those of the group is checked when the batch is written.
    pub fn add_entries<'a>(&mut self, group: u64, entries: impl IntoIterator<Item = (u64, &'a [u8])>) -> &mut LogBatch {
        let start = self.bytes.len();
        self.head(3, group);
        let at = self.bytes.len();
        self.number(0);
        let mut count = 0u64;
        for (index, data) in entries {
            self.number(data.len() as u64 + 8);
            self.number(index);
            self.bytes.extend_from_slice(data);
            count += 1;
        }
        if count == 0 {
            self.bytes.truncate(start);
            self.count(self.count - 1);
            return self;
        }
        self.bytes[at..at + 8].copy_from_slice(&count.to_be_bytes());
        self
    }

    /// Removes all entries and keys of the group.
    pub fn clean(&mut self, group: u64) -> &mut LogBatch {
        self.head(4, group);
        self
    }

    /// Removes the entries below an index.
    pub fn compact(&mut self, group: u64, index: u64) -> &mut LogBatch {
        self.head(5, group);
        self.number(index);
        self
    }
}

// Bytes of the C library.
struct Bytes(sys::raftlog_bytes);

impl Bytes {
    fn new() -> Bytes {
        Bytes(sys::raftlog_bytes { data: ptr::null_mut(), len: 0, room: 0 })
    }

    fn as_slice(&self) -> &[u8] {
        if self.0.data.is_null() {
            return &[];
        }
        unsafe { std::slice::from_raw_parts(self.0.data, self.0.len) }
    }

    fn parts(&self) -> Parts<'_> {
        Parts(self.as_slice())
    }

    fn numbers(&self) -> Vec<u64> {
        let mut parts = self.parts();
        std::iter::from_fn(|| parts.number()).collect()
    }
}

impl Drop for Bytes {
    fn drop(&mut self) {
        unsafe { sys::raftlog_bytes_free(&mut self.0) }
    }
}

struct Parts<'a>(&'a [u8]);

impl<'a> Parts<'a> {
    fn number(&mut self) -> Option<u64> {
        let (number, rest) = self.0.split_first_chunk::<8>()?;
        self.0 = rest;
        Some(u64::from_be_bytes(*number))
    }

    fn part(&mut self) -> Option<&'a [u8]> {
        let len = self.number()? as usize;
        let (part, rest) = self.0.split_at_checked(len)?;
        self.0 = rest;
        Some(part)
    }
}

/// What a log has done since it was opened, in rounds that are over. On average `changes / rounds` changes share a round,
/// and a sync takes `sync_time / syncs`. A purge and a next file have syncs of their own; without these
/// `synced_changes / syncs` changes share a sync.
#[derive(Clone, Copy, Debug, PartialEq, Eq)]
#[non_exhaustive]
pub struct Stats {
    pub rounds: u64,
    /// Writes, syncs, compactions and purges in these rounds.
    pub changes: u64,
    /// Changes that asked for a sync and were done.
    pub synced_changes: u64,
    /// The most changes of a round.
    pub largest_round: u64,
    /// Syncs of log files, whoever asked for them.
    pub syncs: u64,
    /// Bytes written to log files.
    pub bytes: u64,
    /// Time of these syncs.
    pub sync_time: Duration,
    /// Writes that were done.
    pub batches: u64,
    /// Calls of the system that wrote these bytes.
    pub writes: u64,
    /// Time of the longest sync.
    pub longest_sync: Duration,
    /// Syncs by classes of their times. Class 0 has those under a microsecond, each next class those under twice the bound
    /// before, and the last class all others.
    pub sync_times: [u64; SYNC_CLASSES],
    /// Files that a queue has begun.
    pub next_files: u64,
    /// Of these, files that were dropped or reserved before.
    pub recycled_files: u64,
    /// Files that were deleted.
    pub deleted_files: u64,
    /// Purge calls that were carried out, each short call too.
    pub purges: u64,
    /// Time of these calls, without their wait for a round.
    pub purge_time: Duration,
    /// Time of the longest of these calls.
    pub longest_purge: Duration,
    /// Files in the folder now, reserved ones too; 0 in memory.
    pub files: u64,
    /// Memory of the index now: places of entries, rows of keys and groups, without the bytes of keys and values.
    pub index_bytes: u64,
    /// Reads of an entry whose block was kept; the last 16 blocks are kept.
    pub block_hits: u64,
    /// Reads of an entry that had to read its block.
    pub block_misses: u64,
}

/// How many classes of times `Stats::sync_times` has.
pub const SYNC_CLASSES: usize = sys::RAFTLOG_TIMES;

/// What is known of log files of some numbers.
#[derive(Clone, Copy, Debug, PartialEq, Eq)]
#[non_exhaustive]
pub enum LossKind {
    /// They are needed and do not exist: what they contained is lost.
    FileMissing,
    /// One exists, and does not follow on the log's files.
    FileStray,
    /// Another program wrote to the log after its note: whether a file is missing isn't known.
    NoteStale,
    /// One was missing at an earlier opening, and cannot be put back. The numbers are the note's.
    LostBefore,
    Other(i32),
}

impl LossKind {
    fn of(kind: c_int) -> LossKind {
        match kind {
            1 => LossKind::FileMissing,
            2 => LossKind::FileStray,
            3 => LossKind::NoteStale,
            4 => LossKind::LostBefore,
            kind => LossKind::Other(kind),
        }
    }
}

/// What an opening found by the log's note of its files' numbers.
#[derive(Clone, Debug, PartialEq, Eq)]
#[non_exhaustive]
pub struct Loss {
    pub kind: LossKind,
    /// Whether the files are of the Rewrite queue, else of the Append queue.
    pub is_rewrite: bool,
    /// The least and the greatest number.
    pub first: u64,
    pub last: u64,
}

/// Accepts what is missing in a folder that nobody has open: the note then has the files after the last gap, and
/// `Engine::missing` reports what is lost after that. Put files back before: one that is put back after is read, but its
/// loss is not noticed.
pub fn accept_missing(folder: impl AsRef<Path>) -> Result<()> {
    let folder = path_text(folder.as_ref())?;
    let mut text = [0u8; 512];
    match unsafe { sys::raftlog_accept_missing(folder.as_ptr(), text.as_mut_ptr().cast(), text.len()) } {
        OK => Ok(()),
        code => Err(Error::told(code, &text)),
    }
}

/// What an opening cut off a log file, after the last record that can be read.
#[derive(Clone, Debug, PartialEq, Eq)]
#[non_exhaustive]
pub struct Cut {
    /// Of the file, from the folder.
    pub path: PathBuf,
    /// The first byte that is gone.
    pub offset: u64,
    /// How many bytes are.
    pub len: u64,
    /// Whether the first record in these bytes is an earlier file's, as usual after a kill if files are recycled.
    pub stale: bool,
}

// Gets the progress of an opening. A panic can't unwind through C, so it continues after the opening.
struct Watched<'a> {
    watch: &'a mut dyn FnMut(u64, u64),
    panic: Option<Box<dyn std::any::Any + Send>>,
}

unsafe extern "C" fn tell(with: *mut c_void, done: u64, all: u64) {
    let watched = unsafe { &mut *with.cast::<Watched<'_>>() };
    if watched.panic.is_none() {
        watched.panic = catch_unwind(AssertUnwindSafe(|| (watched.watch)(done, all))).err();
    }
}

fn path_text(path: &Path) -> Result<CString> {
    CString::new(path.as_os_str().as_bytes()).map_err(|_| Error::invalid("the folder's path has a NUL"))
}

/// By default the process ends by SIGBUS if a part of a log file can't be read again: the disk fails, or another program
/// cut the file. After this call, once for the process, a read that needs this part fails as `Code::Corruption`, and an
/// opening that needs it fails as `Code::Io`. Other SIGBUS go to the handler that was set before.
pub fn survive_bus_errors() -> Result<()> {
    match unsafe { sys::raftlog_survive_bus_errors() } {
        OK => Ok(()),
        code => Err(Error { code: Code::of(code), message: code_text(code) }),
    }
}

/// An open log. Many threads may use it. Threads that write at the same time share a sync, and a read waits only for writes
/// to its group (`raftlog.h`, "Rounds"). A drop syncs and closes it, and reports no failure; `close` does.
pub struct Engine {
    log: *mut sys::raftlog,
}

// Any thread may make any call. `raftlog_close` takes the log, and no other call can run then.
unsafe impl Send for Engine {}
unsafe impl Sync for Engine {}

impl fmt::Debug for Engine {
    fn fmt(&self, f: &mut fmt::Formatter<'_>) -> fmt::Result {
        f.debug_struct("Engine").finish_non_exhaustive()
    }
}

impl Engine {
    /// Opens the log in a folder; a missing folder is made. The settings are TOML, for example
    /// `target-file-size = "64MB"`. Each that isn't given has its default, and so have all for `""`.
    pub fn open(folder: impl AsRef<Path>, settings: &str) -> Result<Engine> {
        let folder = path_text(folder.as_ref())?;
        Engine::opened(settings, |settings, out, text, room| unsafe {
            sys::raftlog_open(folder.as_ptr(), settings, out, text, room)
        })
    }

    /// As `open`, and calls `watch` with each file: how many bytes are read, and how many there are. When all are read, they
    /// are replayed, which takes as long again.
    pub fn open_watched(folder: impl AsRef<Path>, settings: &str, mut watch: impl FnMut(u64, u64)) -> Result<Engine> {
        let folder = path_text(folder.as_ref())?;
        let mut watched = Watched { watch: &mut watch, panic: None };
        let with = (&mut watched as *mut Watched<'_>).cast();
        let engine = Engine::opened(settings, |settings, out, text, room| unsafe {
            sys::raftlog_open_watched(folder.as_ptr(), settings, Some(tell), with, out, text, room)
        });
        if let Some(panic) = watched.panic {
            resume_unwind(panic);
        }
        engine
    }

    /// As `open`, but fails as `Code::Lost` if a log file is missing or was, or isn't the log's. It has changed no log file
    /// then.
    pub fn open_whole(folder: impl AsRef<Path>, settings: &str) -> Result<Engine> {
        let folder = path_text(folder.as_ref())?;
        Engine::opened(settings, |settings, out, text, room| unsafe {
            sys::raftlog_open_whole(folder.as_ptr(), settings, out, text, room)
        })
    }

    /// A log in memory, for tests.
    pub fn open_memory(settings: &str) -> Result<Engine> {
        Engine::opened(settings, |settings, out, text, room| unsafe {
            sys::raftlog_open_memory(settings, out, text, room)
        })
    }

    fn opened(
        settings: &str,
        open: impl FnOnce(*const c_char, *mut *mut sys::raftlog, *mut c_char, usize) -> c_int,
    ) -> Result<Engine> {
        let settings = CString::new(settings).map_err(|_| Error::invalid("the settings have a NUL"))?;
        let mut log = ptr::null_mut();
        let mut text = [0u8; 512];
        match open(settings.as_ptr(), &mut log, text.as_mut_ptr().cast(), text.len()) {
            OK => Ok(Engine { log }),
            code => Err(Error::told(code, &text)),
        }
    }

    // The text is that of this thread's last failure.
    fn failure(&self, code: c_int) -> Error {
        let mut text = [0u8; 512];
        unsafe { sys::raftlog_message(self.log, text.as_mut_ptr().cast(), text.len()) };
        let message = CStr::from_bytes_until_nul(&text).map_or(code_text(code), |t| t.to_string_lossy().into_owned());
        Error { code: Code::of(code), message }
    }

    fn done(&self, code: c_int) -> Result<()> {
        self.found(code).map(|_| ())
    }

    // Whether the requested value exists.
    fn found(&self, code: c_int) -> Result<bool> {
        match code {
            OK => Ok(true),
            ABSENT => Ok(false),
            code => Err(self.failure(code)),
        }
    }

    /// Writes a batch, and empties it if that is done; else the batch is as it was. After `Ok` with `sync` it survives a
    /// crash, with all that was written before it; without `sync` it does after the next sync.
    pub fn write(&self, batch: &mut LogBatch, sync: bool) -> Result<()> {
        self.done(unsafe { sys::raftlog_write_bytes(self.log, batch.bytes.as_ptr().cast(), batch.bytes.len(), sync) })?;
        batch.clear();
        Ok(())
    }

    /// Writes a batch that acts once, however often it is written. With it each of these groups gets the number beside it.
    /// Each number must be greater than the one that its group keeps; a group that keeps none counts as 0. If none of the
    /// numbers is greater, the batch was written before: nothing is written, and the call returns `Ok`. If some are greater
    /// and others aren't, it fails as `Code::StaleNumber`.
    pub fn write_once(&self, batch: &mut LogBatch, pairs: &[(u64, u64)], sync: bool) -> Result<()> {
        let (groups, numbers): (Vec<u64>, Vec<u64>) = pairs.iter().copied().unzip();
        let bytes = &batch.bytes;
        self.done(unsafe {
            sys::raftlog_write_once_bytes(
                self.log,
                bytes.as_ptr().cast(),
                bytes.len(),
                groups.as_ptr(),
                numbers.as_ptr(),
                pairs.len(),
                sync,
            )
        })?;
        batch.clear();
        Ok(())
    }

    /// Syncs: after `Ok` all that was written survives a crash.
    pub fn sync(&self) -> Result<()> {
        self.done(unsafe { sys::raftlog_sync(self.log) })
    }

    /// What the log has done since it was opened.
    pub fn stats(&self) -> Result<Stats> {
        let mut counts = sys::raftlog_counts::default();
        self.done(unsafe { sys::raftlog_stats(self.log, &mut counts, size_of::<sys::raftlog_counts>()) })?;
        Ok(Stats {
            rounds: counts.rounds,
            changes: counts.changes,
            synced_changes: counts.synced_changes,
            largest_round: counts.largest_round,
            syncs: counts.syncs,
            bytes: counts.bytes,
            sync_time: Duration::from_nanos(counts.sync_ns),
            batches: counts.batches,
            writes: counts.writes,
            longest_sync: Duration::from_nanos(counts.longest_sync_ns),
            sync_times: counts.sync_times,
            next_files: counts.next_files,
            recycled_files: counts.recycled_files,
            deleted_files: counts.deleted_files,
            purges: counts.purges,
            purge_time: Duration::from_nanos(counts.purge_ns),
            longest_purge: Duration::from_nanos(counts.longest_purge_ns),
            files: counts.files,
            index_bytes: counts.index_bytes,
            block_hits: counts.block_hits,
            block_misses: counts.block_misses,
        })
    }

    /// What the opening cut off, except zeros.
    pub fn cuts(&self) -> Vec<Cut> {
        let count = unsafe { sys::raftlog_cuts(self.log, ptr::null_mut(), 0, 0) };
        let mut found = Vec::with_capacity(count);
        unsafe { sys::raftlog_cuts(self.log, found.as_mut_ptr(), count, size_of::<sys::raftlog_cut>()) };
        unsafe { found.set_len(count) };
        let path_of = |cut: &sys::raftlog_cut| OsStr::from_bytes(unsafe { CStr::from_ptr(cut.path) }.to_bytes()).into();
        found.iter().map(|cut| Cut { path: path_of(cut), offset: cut.offset, len: cut.len, stale: cut.stale }).collect()
    }

    /// The log files that someone else deleted, and files that aren't the log's, as the opening found them. After a crash
    /// or a kill there are none. Later openings report them too, until the files are put back or `accept_missing` accepts
    /// the loss; `raftlog.h` has the details.
    pub fn missing(&self) -> Vec<Loss> {
        let count = unsafe { sys::raftlog_missing(self.log, ptr::null_mut(), 0, 0) };
        let mut found = Vec::with_capacity(count);
        unsafe { sys::raftlog_missing(self.log, found.as_mut_ptr(), count, size_of::<sys::raftlog_lost>()) };
        unsafe { found.set_len(count) };
        let loss_of = |it: &sys::raftlog_lost| Loss {
            kind: LossKind::of(it.kind),
            is_rewrite: it.is_rewrite,
            first: it.first,
            last: it.last,
        };
        found.iter().map(loss_of).collect()
    }

    /// Says how entries that are no longer in memory will be read. In order, the default: with each read the system reads
    /// ahead, as far as the disk's `read_ahead_kb` says. At random: one read of no more than is asked for.
    pub fn expect_reads(&self, at_random: bool) -> Result<()> {
        self.done(unsafe { sys::raftlog_expect_reads(self.log, at_random) })
    }

    /// The value that a group has at a key.
    pub fn get(&self, group: u64, key: &[u8]) -> Result<Option<Vec<u8>>> {
        let mut value = Bytes::new();
        let code = unsafe { sys::raftlog_get(self.log, group, key.as_ptr().cast(), key.len(), &mut value.0) };
        Ok(self.found(code)?.then(|| value.as_slice().to_vec()))
    }

    /// The bytes of a group's entry with an index.
    pub fn get_entry(&self, group: u64, index: u64) -> Result<Option<Vec<u8>>> {
        let mut value = Bytes::new();
        let code = unsafe { sys::raftlog_get_entry(self.log, group, index, &mut value.0) };
        Ok(self.found(code)?.then(|| value.as_slice().to_vec()))
    }

    /// The entries from `begin` up to the one before `end` with their indexes: as many as take at most `max_size` bytes
    /// together, each with 8 more, but one at least.
    pub fn fetch_entries(&self, group: u64, begin: u64, end: u64, max_size: Option<u64>) -> Result<Vec<(u64, Vec<u8>)>> {
        let mut bytes = Bytes::new();
        self.done(unsafe { sys::raftlog_fetch_entries(self.log, group, begin, end, max_size.unwrap_or(0), &mut bytes.0) })?;
        let mut parts = bytes.parts();
        let mut entries = Vec::new();
        while let Some((index, data)) = parts.part().and_then(|entry| entry.split_first_chunk::<8>()) {
            entries.push((u64::from_be_bytes(*index), data.to_vec()));
        }
        Ok(entries)
    }

    /// The index of a group's first entry; `None` if it has no entries.
    pub fn first_index(&self, group: u64) -> Result<Option<u64>> {
        let mut index = 0;
        let code = unsafe { sys::raftlog_first_index(self.log, group, &mut index) };
        Ok(self.found(code)?.then_some(index))
    }

    /// The index of a group's last entry; `None` if it has no entries.
    pub fn last_index(&self, group: u64) -> Result<Option<u64>> {
        let mut index = 0;
        let code = unsafe { sys::raftlog_last_index(self.log, group, &mut index) };
        Ok(self.found(code)?.then_some(index))
    }

    /// Removes the entries below an index, without a sync, and returns how many they were.
    pub fn compact_to(&self, group: u64, index: u64) -> Result<u64> {
        let mut count = 0;
        self.done(unsafe { sys::raftlog_compact_to(self.log, group, index, &mut count) })?;
        Ok(count)
    }

    /// Purges by the settings' thresholds: call it every few seconds. It writes again what old files still have, and drops
    /// these files; while the log is small it does nothing. Returns the groups that have many old entries: compact them.
    /// The log's contents stay as they are. Other threads read and write between its calls. Each call writes at most
    /// `budget` bytes, or one group that has more; 1 MB is a good budget. The last call has no such limit: it writes
    /// again what has become due meanwhile, and drops the files.
    pub fn purge_in_short_calls(&self, budget: u64) -> Result<Vec<u64>> {
        let mut groups = Bytes::new();
        self.done(unsafe { sys::raftlog_purge_in_short_calls(self.log, budget, &mut groups.0) })?;
        Ok(groups.numbers())
    }

    /// Does the same in one call, for which all other calls wait. It differs in one thing: it writes the old entries of a
    /// group that it returns only in the tenth purge.
    pub fn purge_expired_files(&self) -> Result<Vec<u64>> {
        let mut groups = Bytes::new();
        self.done(unsafe { sys::raftlog_purge_expired_files(self.log, &mut groups.0) })?;
        Ok(groups.numbers())
    }

    /// The number of the last file of the Append queue that these two would write again now, if they would write any. It is
    /// the watermark for a series of `must_rewrite_append_groups`.
    pub fn append_rewrite_watermark(&self) -> Result<Option<u64>> {
        let mut watermark = 0;
        let code = unsafe { sys::raftlog_append_rewrite_watermark(self.log, &mut watermark) };
        Ok(self.found(code)?.then_some(watermark))
    }

    /// Writes what the Append queue's log files have to the Rewrite queue, drops these files, and returns how many they
    /// were.
    pub fn must_rewrite_append_queue(&self) -> Result<u64> {
        let mut count = 0;
        self.done(unsafe { sys::raftlog_must_rewrite_append_queue(self.log, &mut count) })?;
        Ok(count)
    }

    /// One of a series of short calls, between which others read and write. It writes what the groups from one on have in
    /// the Append queue's files up to the number `watermark` to the Rewrite queue: of as many groups as cost at most
    /// `budget` bytes together, but of one at least. A group costs 64 bytes, and what it has there. Returns the watermark
    /// and the group for the next call. Begin with `u64::MAX`, which means the last file, and 0. After the last call
    /// `must_purge_all_stale` drops the files.
    pub fn must_rewrite_append_groups(&self, watermark: u64, group: u64, budget: u64) -> Result<(u64, Option<u64>)> {
        let (mut watermark, mut group) = (watermark, group);
        self.done(unsafe { sys::raftlog_must_rewrite_append_groups(self.log, &mut watermark, &mut group, budget) })?;
        Ok((watermark, (group != 0).then_some(group)))
    }

    /// One of a series of short calls, between which others read and write. It writes what the groups from one on have in
    /// the Rewrite queue's files to new files of it: of as many groups as cost at most `budget` bytes together, but of one
    /// at least. A group costs 64 bytes, and what it has there. Returns the group for the next call. Begin with 0. The last
    /// call, which returns none, drops the old files. An opening or another purge ends the series, and a failure may: then
    /// begin again with 0.
    pub fn must_rewrite_rewrite_groups(&self, group: u64, budget: u64) -> Result<Option<u64>> {
        let mut group = group;
        self.done(unsafe { sys::raftlog_must_rewrite_rewrite_groups(self.log, &mut group, budget) })?;
        Ok((group != 0).then_some(group))
    }

    /// Writes what the Rewrite queue's log files have to a new one, drops these files, and returns how many they were.
    pub fn must_rewrite_rewrite_queue(&self) -> Result<u64> {
        let mut count = 0;
        self.done(unsafe { sys::raftlog_must_rewrite_rewrite_queue(self.log, &mut count) })?;
        Ok(count)
    }

    /// Drops the first log files of both queues that contain nothing any more. Returns how many of the Append queue it
    /// dropped.
    pub fn must_purge_all_stale(&self) -> Result<u64> {
        let mut count = 0;
        self.done(unsafe { sys::raftlog_must_purge_all_stale(self.log, &mut count) })?;
        Ok(count)
    }

    /// The keys from `start` up to those before `end` with their values, in the order of the bytes or the other way round;
    /// at most `limit`.
    pub fn scan(
        &self,
        group: u64,
        start: Option<&[u8]>,
        end: Option<&[u8]>,
        reverse: bool,
        limit: Option<u64>,
    ) -> Result<Vec<(Vec<u8>, Vec<u8>)>> {
        if limit == Some(0) {
            return Ok(Vec::new());
        }
        let slice = |bytes: &[u8]| sys::raftlog_slice { data: bytes.as_ptr(), len: bytes.len() };
        let (start, end) = (start.map(slice), end.map(slice));
        let mut bytes = Bytes::new();
        self.done(unsafe {
            sys::raftlog_scan(
                self.log,
                group,
                start.as_ref().map_or(ptr::null(), |s| s as *const _),
                end.as_ref().map_or(ptr::null(), |s| s as *const _),
                reverse,
                limit.unwrap_or(0),
                &mut bytes.0,
            )
        })?;
        let mut parts = bytes.parts();
        let mut pairs = Vec::new();
        while let (Some(key), Some(value)) = (parts.part(), parts.part()) {
            pairs.push((key.to_vec(), value.to_vec()));
        }
        Ok(pairs)
    }

    /// The groups into which something was put since they were last cleaned, in order.
    pub fn raft_groups(&self) -> Result<Vec<u64>> {
        let mut bytes = Bytes::new();
        self.done(unsafe { sys::raftlog_groups(self.log, &mut bytes.0) })?;
        Ok(bytes.numbers())
    }

    /// Syncs and closes. After `Ok` all that was written survives a crash.
    pub fn close(mut self) -> Result<()> {
        match unsafe { sys::raftlog_close(std::mem::replace(&mut self.log, ptr::null_mut())) } {
            OK => Ok(()),
            code => Err(Error { code: Code::of(code), message: code_text(code) }),
        }
    }
}

impl Drop for Engine {
    fn drop(&mut self) {
        unsafe { sys::raftlog_close(self.log) };
    }
}
