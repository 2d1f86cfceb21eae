//! The storage of a Raft node over one log: `cargo run --example groups FOLDER`. It saves two entries and the node's state, reads the
//! entries, drops those that a snapshot has, and purges.
use raftlog::{Engine, LogBatch};

/// A node applies the entry to its state here.
fn apply(group: u64, index: u64, data: &[u8]) {
    println!("group {group}, entry {index}: {}", String::from_utf8_lossy(data));
}

/// A node saves the group's state in a file of its own here, syncs it, and returns the last index in it. This example
/// has no state: it keeps all entries.
fn make_snapshot(_group: u64) -> u64 {
    0
}

fn main() -> raftlog::Result<()> {
    let folder = std::env::args().nth(1).unwrap_or("example-log".into());
    let log = Engine::open(folder, "")?;
    let (group, last) = (1, log.last_index(1)?.unwrap_or(0));
    let (applied, committed, snapshot) = (last, last + 2, last);
    let mut batch = LogBatch::new();
    batch.add_entries(group, [(last + 1, b"one".as_slice()), (last + 2, b"two")]); // append, or replace a tail
    batch.put(group, b"state", b"follower"); // the term and the vote
    log.write(&mut batch, true)?; // durable: now answer the leader

    for (index, data) in log.fetch_entries(group, applied + 1, committed + 1, Some(1 << 20))? {
        apply(group, index, &data);
    }

    log.compact_to(group, snapshot + 1)?; // drop what the snapshot has

    // Now and then: free log files, and shorten the groups that keep old ones.
    for group in log.purge_in_short_calls(1 << 20)? {
        log.compact_to(group, make_snapshot(group) + 1)?;
    }
    log.close()
}
