//! A storage of the shape that raft-rs asks of its `Storage`, for one Raft group of a log, with plain
//! structs in place of raft-rs's messages: `cargo run --example raft_storage FOLDER` keeps some
//! entries, drops the log, and finds them again.
use std::fmt;

use raftlog::{Code, Engine, LogBatch};

const HARD_STATE: &[u8] = b"hard-state";
const SNAPSHOT: &[u8] = b"snapshot";

#[derive(Clone, Debug, Default, PartialEq)]
struct Entry {
    index: u64,
    term: u64,
    data: Vec<u8>,
}

#[derive(Clone, Debug, Default, PartialEq)]
struct HardState {
    term: u64,
    vote: u64,
    commit: u64,
}

#[derive(Clone, Debug, Default, PartialEq)]
struct Snapshot {
    index: u64,
    term: u64,
    voters: Vec<u64>,
    data: Vec<u8>,
}

/// What raft-rs's `StorageError` tells apart; the rest is the log's own error.
#[derive(Debug)]
enum Error {
    Compacted,
    Unavailable,
    /// What stands in the log isn't of this layout.
    Layout,
    Log(raftlog::Error),
}

type Result<T> = std::result::Result<T, Error>;

impl fmt::Display for Error {
    fn fmt(&self, f: &mut fmt::Formatter) -> fmt::Result {
        match self {
            Error::Compacted => f.write_str("the entry is compacted"),
            Error::Unavailable => f.write_str("there is no such entry yet"),
            Error::Layout => f.write_str("the log holds what another program wrote"),
            Error::Log(error) => error.fmt(f),
        }
    }
}

impl std::error::Error for Error {}

impl From<raftlog::Error> for Error {
    fn from(error: raftlog::Error) -> Error {
        match error.code {
            Code::Compacted => Error::Compacted,
            Code::NoEntry => Error::Unavailable,
            _ => Error::Log(error),
        }
    }
}

/// The calls of raft-rs's `Storage`, by their names there.
trait Storage {
    fn initial_state(&self) -> Result<(HardState, Vec<u64>)>;
    /// The entries from `low` to the one before `high`: as many as have at most `max_size` bytes, but one.
    fn entries(&self, low: u64, high: u64, max_size: Option<u64>) -> Result<Vec<Entry>>;
    fn term(&self, index: u64) -> Result<u64>;
    fn first_index(&self) -> Result<u64>;
    fn last_index(&self) -> Result<u64>;
    fn snapshot(&self) -> Result<Snapshot>;
}

/// What a `Ready` of raft-rs has to be kept before its messages are sent.
#[derive(Default)]
struct Ready {
    hard_state: Option<HardState>,
    entries: Vec<Entry>,
    snapshot: Option<Snapshot>,
    must_sync: bool,
}

struct GroupStorage<'a> {
    log: &'a Engine,
    group: u64,
}

impl GroupStorage<'_> {
    /// Keeps what one ready has as one batch, which a crash leaves whole or not at all.
    fn save(&mut self, ready: &Ready) -> Result<()> {
        let mut batch = LogBatch::new();
        if let Some(snapshot) = &ready.snapshot {
            batch.put(self.group, SNAPSHOT, &snapshot.encoded());
            batch.compact(self.group, self.last_index()? + 1);
        }
        if let Some(state) = &ready.hard_state {
            batch.put(self.group, HARD_STATE, &state.encoded());
        }
        let encoded: Vec<_> = ready.entries.iter().map(Entry::encoded).collect();
        let indexes = ready.entries.iter().map(|entry| entry.index);
        batch.add_entries(self.group, indexes.zip(encoded.iter().map(Vec::as_slice)));
        Ok(self.log.write(&mut batch, ready.must_sync)?)
    }

    /// Keeps a snapshot of what was applied, and drops the entries up to it.
    fn compact(&mut self, snapshot: &Snapshot) -> Result<()> {
        let mut batch = LogBatch::new();
        batch.put(self.group, SNAPSHOT, &snapshot.encoded());
        batch.compact(self.group, snapshot.index + 1);
        Ok(self.log.write(&mut batch, true)?)
    }
}

impl Storage for GroupStorage<'_> {
    fn initial_state(&self) -> Result<(HardState, Vec<u64>)> {
        let state = match self.log.get(self.group, HARD_STATE)? {
            Some(bytes) => HardState::decoded(&bytes)?,
            None => HardState::default(),
        };
        Ok((state, self.snapshot()?.voters))
    }

    fn entries(&self, low: u64, high: u64, max_size: Option<u64>) -> Result<Vec<Entry>> {
        if low < self.first_index()? {
            return Err(Error::Compacted);
        }
        if high > self.last_index()? + 1 {
            return Err(Error::Unavailable);
        }
        let fetched = self.log.fetch_entries(self.group, low, high, max_size)?;
        fetched.iter().map(|(index, bytes)| Entry::decoded(*index, bytes)).collect()
    }

    fn term(&self, index: u64) -> Result<u64> {
        let snapshot = self.snapshot()?;
        if index == snapshot.index {
            return Ok(snapshot.term);
        }
        if index < self.first_index()? {
            return Err(Error::Compacted);
        }
        let bytes = self.log.get_entry(self.group, index)?.ok_or(Error::Unavailable)?;
        Ok(Entry::decoded(index, &bytes)?.term)
    }

    fn first_index(&self) -> Result<u64> {
        Ok(self.log.first_index(self.group)?.unwrap_or(self.snapshot()?.index + 1))
    }

    fn last_index(&self) -> Result<u64> {
        Ok(self.log.last_index(self.group)?.unwrap_or(self.snapshot()?.index))
    }

    fn snapshot(&self) -> Result<Snapshot> {
        match self.log.get(self.group, SNAPSHOT)? {
            Some(bytes) => Snapshot::decoded(&bytes),
            None => Ok(Snapshot::default()),
        }
    }
}

/// Takes numbers of eight bytes, the greatest byte first, from the front.
fn number(bytes: &mut &[u8]) -> Result<u64> {
    let (front, rest) = bytes.split_first_chunk::<8>().ok_or(Error::Layout)?;
    *bytes = rest;
    Ok(u64::from_be_bytes(*front))
}

fn encoded(numbers: impl IntoIterator<Item = u64>, data: &[u8]) -> Vec<u8> {
    numbers.into_iter().flat_map(u64::to_be_bytes).chain(data.iter().copied()).collect()
}

impl Entry {
    fn encoded(&self) -> Vec<u8> {
        encoded([self.term], &self.data)
    }

    fn decoded(index: u64, mut bytes: &[u8]) -> Result<Entry> {
        let term = number(&mut bytes)?;
        Ok(Entry { index, term, data: bytes.to_vec() })
    }
}

impl HardState {
    fn encoded(&self) -> Vec<u8> {
        encoded([self.term, self.vote, self.commit], &[])
    }

    fn decoded(mut bytes: &[u8]) -> Result<HardState> {
        let bytes = &mut bytes;
        Ok(HardState { term: number(bytes)?, vote: number(bytes)?, commit: number(bytes)? })
    }
}

impl Snapshot {
    fn encoded(&self) -> Vec<u8> {
        let head = [self.index, self.term, self.voters.len() as u64];
        encoded(head.into_iter().chain(self.voters.iter().copied()), &self.data)
    }

    fn decoded(mut bytes: &[u8]) -> Result<Snapshot> {
        let (index, term, count) = (number(&mut bytes)?, number(&mut bytes)?, number(&mut bytes)?);
        let voters = (0..count).map(|_| number(&mut bytes)).collect::<Result<_>>()?;
        Ok(Snapshot { index, term, voters, data: bytes.to_vec() })
    }
}

fn entry(index: u64, term: u64, text: &str) -> Entry {
    Entry { index, term, data: text.into() }
}

/// Keeps entries, of which a later term replaces the last, and a snapshot in the midst of them.
fn keep(storage: &mut GroupStorage, begin: u64) -> Result<()> {
    let entries = (begin..begin + 4).map(|index| entry(index, 1, "first")).collect();
    let hard_state = Some(HardState { term: 1, vote: 1, commit: begin });
    storage.save(&Ready { hard_state, entries, must_sync: true, ..Ready::default() })?;
    let entries = vec![entry(begin + 2, 2, "second")];
    let hard_state = Some(HardState { term: 2, vote: 3, commit: begin + 2 });
    storage.save(&Ready { hard_state, entries, must_sync: true, ..Ready::default() })?;
    let index = begin + 1;
    storage.compact(&Snapshot { index, term: 1, voters: vec![1, 2, 3], data: b"state".to_vec() })
}

fn main() -> std::result::Result<(), Box<dyn std::error::Error>> {
    let folder = std::env::args().nth(1).unwrap_or("example-log".into());
    let log = Engine::open(&folder, "")?;
    let mut storage = GroupStorage { log: &log, group: 1 };
    let begin = storage.last_index()? + 1;
    keep(&mut storage, begin)?;
    log.close()?;

    let log = Engine::open(&folder, "")?;
    let storage = GroupStorage { log: &log, group: 1 };
    let (state, voters) = storage.initial_state()?;
    assert_eq!(state, HardState { term: 2, vote: 3, commit: begin + 2 });
    assert_eq!(voters, [1, 2, 3]);
    assert_eq!((storage.first_index()?, storage.last_index()?), (begin + 2, begin + 2));
    assert_eq!(storage.term(begin + 1)?, 1);
    assert_eq!(storage.term(begin + 2)?, 2);
    assert_eq!(storage.entries(begin + 2, begin + 3, None)?, [entry(begin + 2, 2, "second")]);
    assert!(matches!(storage.entries(begin, begin + 1, None), Err(Error::Compacted)));
    assert!(matches!(storage.term(begin + 3), Err(Error::Unavailable)));
    println!("entry {}, snapshot {}: found again", begin + 2, storage.snapshot()?.index);
    log.close()?;
    Ok(())
}
