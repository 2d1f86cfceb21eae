"""The storage of a Raft node over one log: `example.py FOLDER`. It saves two entries and the node's state, reads the entries, drops
those that a snapshot has, and purges."""
import sys

from raftlog import Engine, LogBatch


def apply(group, index, data):
    """A node applies the entry to its state here."""
    print(f"group {group}, entry {index}: {data.decode()}")


def make_snapshot(group):
    """A node saves the group's state in a file of its own here, syncs it, and returns the last index in it. This example
    has no state: it keeps all entries."""
    return 0


folder = sys.argv[1] if sys.argv[1:] else "example-log"
with Engine(folder) as log:
    group, last = 1, log.last_index(1) or 0
    applied, committed, snapshot = last, last + 2, last
    batch = LogBatch().add_entries(group, [(last + 1, b"one"), (last + 2, b"two")])  # append, or replace a tail
    batch.put(group, b"state", b"follower")                                          # the term and the vote
    log.write(batch, sync=True)                                                      # durable: now answer the leader

    for index, data in log.fetch_entries(group, applied + 1, committed + 1, max_size=1 << 20):
        apply(group, index, data)

    log.compact_to(group, snapshot + 1)                                              # drop what the snapshot has

    for group in log.purge_in_short_calls():                                         # now and then: free log files
        log.compact_to(group, make_snapshot(group) + 1)                              # groups that keep old files
