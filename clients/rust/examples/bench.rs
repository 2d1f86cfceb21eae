//! ns per put and get over a log in memory.
use raftlog::{Engine, LogBatch};
use std::time::Instant;

fn key_of(number: u64) -> [u8; 16] {
    let mut key = [0; 16];
    key[..8].copy_from_slice(&(number.wrapping_mul(0x9E37_79B9_7F4A_7C15) | 0x80).to_le_bytes());
    key[8..].copy_from_slice(&number.to_le_bytes());
    key
}

fn main() -> raftlog::Result<()> {
    let (count, value) = (100_000u64, [7u8; 100]);
    for _ in 0..3 {
        let log = Engine::open_memory("")?;
        let mut batch = LogBatch::new();
        let start = Instant::now();
        for i in 0..count {
            batch.put(1 + i % 100, &key_of(i), &value);
            log.write(&mut batch, false)?;
        }
        let put = start.elapsed().as_nanos() as u64 / count;
        let start = Instant::now();
        for i in 0..count {
            let j = i * 7919 % count;
            assert!(log.get(1 + j % 100, &key_of(j))?.is_some());
        }
        println!("put {put} ns, get {} ns", start.elapsed().as_nanos() as u64 / count);
        log.close()?;
    }
    Ok(())
}
