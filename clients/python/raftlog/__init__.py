"""A log for many Raft groups, in a folder. Batches of entries, keys and values are appended to one shared log, synced on
request, and found again after a crash. Keys, values and entries are bytes; groups and indexes are numbers of 64 bits.

The package calls the shared library libraftlog: the one at the path RAFTLOG_SO, else the package's own, else the one that
`make -C clients/c` builds in a checkout, else the one that pkg-config knows, else the one that the system finds."""
import collections
import ctypes
import os
import struct
import subprocess
from ctypes import POINTER, byref, c_bool, c_char_p, c_int, c_size_t, c_uint64, c_uint8, c_void_p

_HERE = os.path.dirname(os.path.abspath(__file__))
_NAME = "libraftlog.so.0"


def _installed():
    """The folder of the library that pkg-config knows, or None."""
    try:
        asked = subprocess.run(["pkg-config", "--variable=libdir", "raftlog"], capture_output=True, text=True)
    except OSError:
        return None
    return asked.stdout.strip() if asked.returncode == 0 else None


def _load():
    if "RAFTLOG_SO" in os.environ:
        return ctypes.CDLL(os.environ["RAFTLOG_SO"])
    for folder in (_HERE, os.path.join(_HERE, "../../c/build"), _installed()):
        if folder and os.path.exists(os.path.join(folder, _NAME)):
            return ctypes.CDLL(os.path.join(folder, _NAME))
    try:
        return ctypes.CDLL(_NAME)
    except OSError as error:
        raise ImportError("%s isn't found: set RAFTLOG_SO to its path, or install it (make -C clients/c install): %s"
                          % (_NAME, error)) from None


_C = _load()

# Why a call failed: the `code` of an Error.
INVALID = 1        # an argument, a setting or a key is refused; nothing was changed
CORRUPTION = 2     # a log file can't be read, and the recovery mode doesn't tolerate it: raftctl FOLDER check
IO = 3             # a file call failed; after a change the log has failed
TRY_AGAIN = 4      # no space: a write can be made again, after a purge the log has failed (in a folder it is IO)
GAP = 5            # the entries don't follow those of their group; nothing was changed
RANGE = 6          # an index of 2**64 - 1, a record that is too long, or no number left for a next file
COMPACTED = 7      # a fetch begins before the group's first entry
NO_ENTRY = 8       # a fetch ends after the group's last entry
WRONG_INDEX = 9    # the stored bytes are the entry of another index
NOT_AN_ENTRY = 10  # the stored bytes are too short for an entry
FAILED = 11        # the log failed in an earlier call: close it, and open its folder again
NO_MEMORY = 12     # out of memory; after a change the log may have failed
LZ4 = 13           # the log has a compressed record, which can't be read
STALE_NUMBER = 18  # some numbers of a write_once are greater than those that their groups keep, and others aren't
ABSENT = 20        # no failure: a call returns None
IN_USE = 30        # the folder is open already; the text names the process
NOT_PLAIN = 31     # a log file's name belongs to a link, a folder, a device or a file with several names
FOLDER = 32        # the folder can't be made, locked or read
LOST = 33          # a log file is missing or was, or isn't the log's (whole=True)

# The kind of a Loss.
FILE_MISSING, FILE_STRAY, NOTE_STALE, LOST_BEFORE = 1, 2, 3, 4
_Watch = ctypes.CFUNCTYPE(None, c_void_p, c_uint64, c_uint64)


class _Slice(ctypes.Structure):
    _fields_ = [("data", c_char_p), ("len", c_size_t)]


class Stats(ctypes.Structure):
    """What a log has done since it was opened, in rounds that are over.

    rounds           rounds: each has the changes that were made together
    changes          writes, syncs, compactions and purges in these rounds
    synced_changes   changes that asked for a sync and were done
    largest_round    the most changes of a round
    syncs            syncs of log files, whoever asked for them
    bytes            bytes written to log files
    sync_ns          time of these syncs, in nanoseconds
    batches          writes that were done
    writes           calls of the system that wrote these bytes
    longest_sync_ns  time of the longest sync
    sync_times       syncs by classes: class 0 has those under a microsecond, each next class those under twice the bound
                     before, and the last class all others
    next_files       files that a queue has begun
    recycled_files   of these, files that were dropped or reserved before
    deleted_files    files that were deleted
    purges           purge calls that were carried out, each short call too
    purge_ns         time of these calls, without their wait for a round
    longest_purge_ns time of the longest of these calls
    files            files in the folder now, reserved ones too; 0 in memory
    index_bytes      memory of the index now, without the bytes of keys and values
    block_hits       reads of an entry whose block was kept; the last 16 blocks are kept
    block_misses     reads of an entry that had to read its block"""
    _fields_ = [(name, c_uint64) for name in
                ("rounds", "changes", "synced_changes", "largest_round", "syncs", "bytes", "sync_ns", "batches", "writes",
                 "longest_sync_ns")]
    _fields_ += [("sync_times", c_uint64 * 24)]
    _fields_ += [(name, c_uint64) for name in
                 ("next_files", "recycled_files", "deleted_files", "purges", "purge_ns", "longest_purge_ns", "files",
                  "index_bytes", "block_hits", "block_misses")]

    def as_dict(self):
        """The numbers by their names."""
        values = {name: getattr(self, name) for name, _ in self._fields_}
        values["sync_times"] = list(self.sync_times)
        return values

    def __repr__(self):
        return "Stats(%s)" % ", ".join("%s=%s" % item for item in self.as_dict().items())


Cut = collections.namedtuple("Cut", "path offset len stale")


class _Cut(ctypes.Structure):
    _fields_ = [("path", c_char_p), ("offset", c_uint64), ("len", c_uint64), ("stale", c_bool)]


Loss = collections.namedtuple("Loss", "kind is_rewrite first last")


class _Lost(ctypes.Structure):
    _fields_ = [("kind", c_int), ("is_rewrite", c_bool), ("first", c_uint64), ("last", c_uint64)]


class _Bytes(ctypes.Structure):
    _fields_ = [("data", POINTER(c_uint8)), ("len", c_size_t), ("room", c_size_t)]

    def take(self):
        return ctypes.string_at(self.data, self.len)

    def __del__(self):
        _C.raftlog_bytes_free(byref(self))


for _name, _result, _arguments in [
    ("bytes_free", None, [POINTER(_Bytes)]),
    ("open_watched", c_int, [c_char_p, c_char_p, _Watch, c_void_p, POINTER(c_void_p), c_char_p, c_size_t]),
    ("open_whole", c_int, [c_char_p, c_char_p, POINTER(c_void_p), c_char_p, c_size_t]),
    ("accept_missing", c_int, [c_char_p, c_char_p, c_size_t]),
    ("missing", c_size_t, [c_void_p, POINTER(_Lost), c_size_t, c_size_t]),
    ("open_memory", c_int, [c_char_p, POINTER(c_void_p), c_char_p, c_size_t]),
    ("close", c_int, [c_void_p]),
    ("stats", c_int, [c_void_p, POINTER(Stats), c_size_t]),
    ("cuts", c_size_t, [c_void_p, POINTER(_Cut), c_size_t, c_size_t]),
    ("message", c_size_t, [c_void_p, c_char_p, c_size_t]),
    ("code_text", c_char_p, [c_int]),
    ("survive_bus_errors", c_int, []),
    ("expect_reads", c_int, [c_void_p, c_bool]),
    ("write_bytes", c_int, [c_void_p, c_char_p, c_size_t, c_bool]),
    ("write_once_bytes", c_int,
     [c_void_p, c_char_p, c_size_t, POINTER(c_uint64), POINTER(c_uint64), c_size_t, c_bool]),
    ("sync", c_int, [c_void_p]),
    ("get", c_int, [c_void_p, c_uint64, c_char_p, c_size_t, POINTER(_Bytes)]),
    ("get_entry", c_int, [c_void_p, c_uint64, c_uint64, POINTER(_Bytes)]),
    ("fetch_entries", c_int, [c_void_p, c_uint64, c_uint64, c_uint64, c_uint64, POINTER(_Bytes)]),
    ("first_index", c_int, [c_void_p, c_uint64, POINTER(c_uint64)]),
    ("last_index", c_int, [c_void_p, c_uint64, POINTER(c_uint64)]),
    ("compact_to", c_int, [c_void_p, c_uint64, c_uint64, POINTER(c_uint64)]),
    ("must_rewrite_append_queue", c_int, [c_void_p, POINTER(c_uint64)]),
    ("must_rewrite_append_groups", c_int, [c_void_p, POINTER(c_uint64), POINTER(c_uint64), c_uint64]),
    ("must_rewrite_rewrite_groups", c_int, [c_void_p, POINTER(c_uint64), c_uint64]),
    ("must_rewrite_rewrite_queue", c_int, [c_void_p, POINTER(c_uint64)]),
    ("must_purge_all_stale", c_int, [c_void_p, POINTER(c_uint64)]),
    ("purge_expired_files", c_int, [c_void_p, POINTER(_Bytes)]),
    ("purge_in_short_calls", c_int, [c_void_p, c_uint64, POINTER(_Bytes)]),
    ("append_rewrite_watermark", c_int, [c_void_p, POINTER(c_uint64)]),
    ("scan", c_int, [c_void_p, c_uint64, POINTER(_Slice), POINTER(_Slice), c_bool, c_uint64, POINTER(_Bytes)]),
    ("groups", c_int, [c_void_p, POINTER(_Bytes)]),
]:
    _function = getattr(_C, "raftlog_" + _name)
    _function.restype, _function.argtypes = _result, _arguments


class Error(Exception):
    """A call failed, for the reason `code`. It can be pickled, so it passes from a worker process to its pool."""

    def __init__(self, code, text):
        super().__init__(text or _C.raftlog_code_text(code).decode())
        self.code = code

    def __reduce__(self):
        return Error, (self.code, str(self))


def survive_bus_errors():
    """By default the process ends by SIGBUS if a part of a log file can't be read again: the disk fails, or another program
    cut the file. After this call, once for the process, a read that needs this part fails as CORRUPTION, and an opening
    that needs it fails as IO."""
    code = _C.raftlog_survive_bus_errors()
    if code:
        raise Error(code, "")


def accept_missing(folder):
    """Accepts what is missing in a folder that nobody has open: the note then has the files after the last gap, and
    `missing` reports what is lost after that. Put files back before: one that is put back after is read, but its loss
    is not noticed."""
    text = ctypes.create_string_buffer(512)
    code = _C.raftlog_accept_missing(os.fsencode(folder), text, 512)
    if code:
        raise Error(code, text.value.decode(errors="replace"))


def _number(number):
    return struct.pack(">Q", number)


def _data(data):
    """Bytes as they are now."""
    if isinstance(data, bytes):
        return data
    if isinstance(data, (bytearray, memoryview)):
        return bytes(data)
    raise TypeError("a key, a value and an entry are bytes, not " + type(data).__name__)


def _bound(key):
    if key is None:
        return None
    key = _data(key)
    return byref(_Slice(key, len(key)))


class LogBatch:
    """Changes that are written together: as a whole or not at all."""

    def __init__(self):
        self.clear()

    def _add(self, kind, group, *parts):
        self._count += 1
        self._parts += [struct.pack(">BQ", kind, group), *parts]
        return self

    def put(self, group, key, value):
        """Puts a value at a key. A key that begins with two underscores is refused when the batch is written."""
        key, value = _data(key), _data(value)
        return self._add(1, group, _number(len(key)), key, _number(len(value)), value)

    def delete(self, group, key):
        """Deletes a key, if it exists."""
        key = _data(key)
        return self._add(2, group, _number(len(key)), key)

    def add_entries(self, group, entries):
        """Adds entries, as pairs of an index and its bytes, with consecutive indexes. They replace the group's entries from
        the first index on. That the indexes follow those of the group is checked when the batch is written."""
        entries = [(index, _data(data)) for index, data in entries]
        if not entries:
            return self
        self._add(3, group, _number(len(entries)))
        for index, data in entries:
            self._parts += [struct.pack(">QQ", len(data) + 8, index), data]
        return self

    def clean(self, group):
        """Removes all entries and keys of the group."""
        return self._add(4, group)

    def compact(self, group, index):
        """Removes the entries below an index."""
        return self._add(5, group, _number(index))

    def clear(self):
        """Removes all changes."""
        self._parts, self._count = [], 0

    def _bytes(self):
        return b"".join([_number(self._count), *self._parts])


def _numbers(data):
    return list(struct.unpack(">%dQ" % (len(data) // 8), data))


def _parts(data):
    at, parts = 0, []
    while at < len(data):
        (length,) = struct.unpack_from(">Q", data, at)
        parts.append(data[at + 8:at + 8 + length])
        at += 8 + length
    return parts


class Engine:
    """An open log, which is a context manager. Many threads may use it: those that write at the same time share a sync, and a
    read waits only for writes to its group (raftlog.h, "Rounds"). Call `close` when no other call runs."""

    def __init__(self, folder=None, settings="", watch=None, whole=False):
        """Opens the log in a folder; a missing folder is made. Without a folder the log is in memory, for tests.

        settings  TOML, for example 'target-file-size = "64MB"'; each that isn't given has its default
        watch     is called with each file, watch(done, all): how many bytes are read, and how many there are
        whole     the opening fails as LOST if a log file is missing or was, or isn't the log's; it takes no watch"""
        if whole and watch:
            raise ValueError("an opening takes whole or watch")
        text, self._log = ctypes.create_string_buffer(512), c_void_p()
        out = settings.encode(), byref(self._log), text, 512
        if folder is None:
            code = _C.raftlog_open_memory(*out)
        elif whole:
            code = _C.raftlog_open_whole(os.fsencode(folder), *out)
        else:
            told = _Watch(lambda _, done, all_bytes: watch(done, all_bytes)) if watch else _Watch()
            code = _C.raftlog_open_watched(os.fsencode(folder), settings.encode(), told, None, *out[1:])
        if code:
            raise Error(code, text.value.decode(errors="replace"))

    def _failure(self, code):
        text = ctypes.create_string_buffer(512)
        _C.raftlog_message(self._log, text, 512)
        return Error(code, text.value.decode(errors="replace"))

    def _call(self, name, *arguments):
        if not self._log:
            raise Error(FAILED, "the log is closed")
        code = getattr(_C, "raftlog_" + name)(self._log, *arguments)
        if code not in (0, ABSENT):
            raise self._failure(code)
        return code == 0

    def _read(self, name, *arguments):
        found = _Bytes()
        return found.take() if self._call(name, *arguments, byref(found)) else None

    def write(self, batch, sync=False):
        """Writes a batch, and empties it; after a failure the batch is as it was. With sync it survives a crash when the call
        has returned, with all that was written before it; without sync it does after the next sync."""
        data = batch._bytes()
        self._call("write_bytes", data, len(data), sync)
        batch.clear()

    def write_once(self, batch, pairs, sync=False):
        """Writes a batch that acts once, however often it is written. With it each group of the pairs gets the number beside
        it. Each number must be greater than the one that its group keeps; a group that keeps none counts as 0. If none of
        the numbers is greater, the batch was written before: nothing is written, and the call succeeds. If some are greater
        and others aren't, it fails as STALE_NUMBER."""
        pairs, data = list(pairs), batch._bytes()
        groups, numbers = ((c_uint64 * len(pairs))(*(pair[i] for pair in pairs)) for i in (0, 1))
        self._call("write_once_bytes", data, len(data), groups, numbers, len(pairs), sync)
        batch.clear()

    def sync(self):
        """Syncs: after it all that was written survives a crash."""
        self._call("sync")

    def stats(self):
        """What the log has done since it was opened, as a Stats."""
        stats = Stats()
        self._call("stats", byref(stats), ctypes.sizeof(stats))
        return stats

    def cuts(self):
        """What the opening cut off log files after the last record that can be read, except zeros. A Cut has the path
        from the folder, the offset of the first byte, the length, and whether the first record there is an earlier file's,
        as usual after a kill if files are recycled."""
        if not self._log:
            raise Error(FAILED, "the log is closed")
        count = _C.raftlog_cuts(self._log, None, 0, 0)
        found = (_Cut * count)()
        _C.raftlog_cuts(self._log, found, count, ctypes.sizeof(_Cut))
        return [Cut(os.fsdecode(cut.path), cut.offset, cut.len, cut.stale) for cut in found]

    def missing(self):
        """The log files that someone else deleted, and files that aren't the log's, as the opening found them by the log's
        note of their numbers. A Loss has its kind (FILE_MISSING, FILE_STRAY, LOST_BEFORE: one was missing at an earlier
        opening and cannot be put back, or NOTE_STALE: not known), the queue, and the least and the greatest number; for
        the last two kinds these are the note's. After a crash or a kill there are none. Later openings report them too,
        until the files are put back or `accept_missing` accepts the loss; raftlog.h has the details."""
        if not self._log:
            raise Error(FAILED, "the log is closed")
        count = _C.raftlog_missing(self._log, None, 0, 0)
        found = (_Lost * count)()
        _C.raftlog_missing(self._log, found, count, ctypes.sizeof(_Lost))
        return [Loss(lost.kind, lost.is_rewrite, lost.first, lost.last) for lost in found]

    def expect_reads(self, at_random):
        """Says how entries that are no longer in memory will be read. In order, the default: with each read the system reads
        ahead, as far as the disk's read_ahead_kb says. At random: one read of no more than is asked for."""
        self._call("expect_reads", at_random)

    def get(self, group, key):
        """The value that the group has at a key, or None."""
        key = _data(key)
        return self._read("get", group, key, len(key))

    def get_entry(self, group, index):
        """The bytes of the group's entry with an index, or None."""
        return self._read("get_entry", group, index)

    def fetch_entries(self, group, begin, end, max_size=0):
        """The entries from begin up to the one before end, as pairs of an index and its bytes: as many as take at most
        max_size bytes together (each counts 8 bytes more than its own), but one at least; 0 is no bound."""
        entries = _parts(self._read("fetch_entries", group, begin, end, max_size))
        return [(int.from_bytes(entry[:8], "big"), entry[8:]) for entry in entries]

    def _number(self, name, *arguments):
        number = c_uint64()
        return number.value if self._call(name, *arguments, byref(number)) else None

    def first_index(self, group):
        """The index of the group's first entry, or None."""
        return self._number("first_index", group)

    def last_index(self, group):
        """The index of the group's last entry, or None."""
        return self._number("last_index", group)

    def _count(self, name, *arguments):
        count = c_uint64()
        self._call(name, *arguments, byref(count))
        return count.value

    def compact_to(self, group, index):
        """Removes the entries below an index, without a sync, and returns how many they were."""
        return self._count("compact_to", group, index)

    def purge_in_short_calls(self, budget=1 << 20):
        """Purges by the settings' thresholds: call it every few seconds. It writes again what old files still have, and drops
        these files; while the log is small it does nothing. Returns the groups that have many old entries: compact them.
        The log's contents stay as they are. Other threads read and write between its calls. Each call writes at most
        `budget` bytes, or one group that has more. The last call has no such limit: it writes again what has become due
        meanwhile, and drops the files."""
        return _numbers(self._read("purge_in_short_calls", c_uint64(budget)))

    def purge_expired_files(self):
        """Does the same in one call, for which all other calls wait. It differs in one thing: it writes the old entries of a
        group that it returns only in the tenth purge."""
        return _numbers(self._read("purge_expired_files"))

    def append_rewrite_watermark(self):
        """The number of the last file of the Append queue that these two would write again now, or None. It is the
        watermark for a series of must_rewrite_append_groups."""
        return self._number("append_rewrite_watermark")

    def must_rewrite_append_queue(self):
        """Writes what the Append queue's log files have to the Rewrite queue, drops these files, and returns how many they
        were."""
        return self._count("must_rewrite_append_queue")

    def must_rewrite_append_groups(self, watermark, group, budget):
        """One of a series of short calls, between which others read and write. It writes what the groups from one on have in
        the Append queue's files up to the number `watermark` to the Rewrite queue: of as many groups as cost at most
        `budget` bytes together, but of one at least. A group costs 64 bytes, and what it has there. Returns the watermark
        and the group for the next call, None after the last one. Begin with 2**64 - 1, which means the last file, and 0.
        After the last call must_purge_all_stale drops the files."""
        watermark, group = c_uint64(watermark), c_uint64(group)
        self._call("must_rewrite_append_groups", byref(watermark), byref(group), c_uint64(budget))
        return watermark.value, group.value or None

    def must_rewrite_rewrite_groups(self, group, budget):
        """One of a series of short calls, between which others read and write. It writes what the groups from one on have in
        the Rewrite queue's files to new files of it: of as many groups as cost at most `budget` bytes together, but of one
        at least. A group costs 64 bytes, and what it has there. Returns the group for the next call. Begin with 0. The last
        call, which returns None, drops the old files. An opening or another purge ends the series, and a failure may: then
        begin again with 0."""
        group = c_uint64(group)
        self._call("must_rewrite_rewrite_groups", byref(group), c_uint64(budget))
        return group.value or None

    def must_rewrite_rewrite_queue(self):
        """Writes what the Rewrite queue's log files have to a new one, drops these files, and returns how many they were."""
        return self._count("must_rewrite_rewrite_queue")

    def must_purge_all_stale(self):
        """Drops the first log files of both queues that contain nothing any more. Returns how many of the Append queue it
        dropped."""
        return self._count("must_purge_all_stale")

    def scan(self, group, start=None, end=None, reverse=False, limit=0):
        """The keys from start up to those before end with their values, as pairs in the order of the keys' bytes, or with
        reverse in the opposite order. A bound may be None for none; a limit of 0 is none."""
        parts = _parts(self._read("scan", group, _bound(start), _bound(end), reverse, limit))
        return list(zip(parts[::2], parts[1::2]))

    def groups(self):
        """The groups into which something was put since they were last cleaned, in order."""
        return _numbers(self._read("groups"))

    def close(self):
        """Syncs and closes. If it returns, all that was written survives a crash. It may be called again."""
        log, self._log = self._log, c_void_p()
        code = _C.raftlog_close(log) if log else 0
        if code:
            raise Error(code, "")

    def __enter__(self):
        return self

    def __exit__(self, *_):
        self.close()

    def __del__(self):
        if getattr(self, "_log", None):
            _C.raftlog_close(self._log)
