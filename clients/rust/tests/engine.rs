use raftlog::{Code, Engine, LogBatch, LossKind};
use std::io::Write;
use std::sync::Arc;

fn folder(name: &str) -> std::path::PathBuf {
    let folder = std::env::temp_dir().join(format!("raftlog-test-{}-{name}", std::process::id()));
    let _ = std::fs::remove_dir_all(&folder);
    folder
}

fn exercise(log: &Engine) {
    let mut batch = LogBatch::new();
    batch.put(1, b"a", b"first").put(1, b"b", b"").put(1, b"c", b"third").delete(1, b"c");
    batch.add_entries(7, (5..15u64).map(|index| (index, b"entry".as_slice())));
    log.write(&mut batch, true).unwrap();
    assert!(batch.is_empty());
    assert_eq!(log.get(1, b"a").unwrap().unwrap(), b"first");
    assert_eq!(log.get(1, b"b").unwrap().unwrap(), b"");
    assert_eq!(log.get(1, b"c").unwrap(), None);
    assert_eq!(log.get_entry(7, 8).unwrap().unwrap(), b"entry");
    assert_eq!(log.get_entry(7, 15).unwrap(), None);
    assert_eq!((log.first_index(7).unwrap(), log.last_index(7).unwrap()), (Some(5), Some(14)));
    assert_eq!(log.first_index(1).unwrap(), None);
    let entries = log.fetch_entries(7, 5, 15, Some(27)).unwrap();
    assert_eq!(entries, [(5, b"entry".to_vec()), (6, b"entry".to_vec())]);
    assert_eq!(log.fetch_entries(7, 4, 15, None).unwrap_err().code, Code::Compacted);
    assert_eq!(log.fetch_entries(7, 5, 16, None).unwrap_err().to_string(), "entry not found");
    let pairs = log.scan(1, None, None, true, None).unwrap();
    assert_eq!(pairs, [(b"b".to_vec(), vec![]), (b"a".to_vec(), b"first".to_vec())]);
    assert_eq!(log.scan(1, Some(b"a"), Some(b"b"), false, None).unwrap().len(), 1);
    assert_eq!(log.scan(1, None, None, false, Some(1)).unwrap().len(), 1);
    assert_eq!(log.compact_to(7, 8).unwrap(), 3);
    batch.compact(7, 10).clean(1);
    log.write(&mut batch, false).unwrap();
    assert_eq!(log.first_index(7).unwrap(), Some(10));
    assert_eq!(log.raft_groups().unwrap(), [7]);
    batch.add_entries(7, [(100, b"x".as_slice())]).put(1, b"k", b"v");
    assert_eq!(log.write(&mut batch, true).unwrap_err().code, Code::Gap);
    assert!(!batch.is_empty());
    assert_eq!(log.get(1, b"k").unwrap(), None);
    log.sync().unwrap();
    log.must_purge_all_stale().unwrap();
    assert_eq!(log.purge_expired_files().unwrap(), []);
    assert_eq!(log.purge_in_short_calls(1 << 20).unwrap(), []);
    assert_eq!(log.append_rewrite_watermark().unwrap(), None);
    let (watermark, mut next) = log.must_rewrite_append_groups(u64::MAX, 0, 0).unwrap();
    while let Some(group) = next {
        next = log.must_rewrite_append_groups(watermark, group, 0).unwrap().1;
    }
    let mut next = log.must_rewrite_rewrite_groups(0, 0).unwrap();
    while let Some(group) = next {
        next = log.must_rewrite_rewrite_groups(group, 0).unwrap();
    }
    log.must_rewrite_append_queue().unwrap();
    log.must_rewrite_rewrite_queue().unwrap();
    assert_eq!(log.last_index(7).unwrap(), Some(14));
}

#[test]
fn purge_in_short_calls() {
    let log = Engine::open_memory("target-file-size = \"16KB\"\npurge-threshold = \"256KB\"").unwrap();
    let mut batch = LogBatch::new();
    let (old, value) = ([0; 200], |number: u32| format!("{number:04}").repeat(250).into_bytes());
    let place = |number: u32| (u64::from(number) % 20 + 50, [(number / 20 % 10) as u8]);
    batch.add_entries(9, (1..101).map(|index| (index, old.as_slice())));
    log.write(&mut batch, false).unwrap();
    for number in 0..400 {
        let (group, key) = place(number);
        batch.put(group, &key, &value(number));
        log.write(&mut batch, false).unwrap();
    }
    assert!(log.append_rewrite_watermark().unwrap() > Some(1));
    let calls = log.stats().unwrap().purges;
    assert!(log.purge_in_short_calls(4000).unwrap().contains(&9));
    assert!(log.stats().unwrap().purges > calls + 10);
    assert_eq!(log.append_rewrite_watermark().unwrap(), None);
    for number in 200..400 {
        let (group, key) = place(number);
        assert_eq!(log.get(group, &key).unwrap(), Some(value(number)));
    }
    assert_eq!((log.first_index(9).unwrap(), log.last_index(9).unwrap()), (Some(1), Some(100)));
}

#[test]
fn bad_arguments() {
    let log = Engine::open_memory("").unwrap();
    let mut batch = LogBatch::new();
    batch.put(1, b"", b"").put(1, &vec![1; 1 << 20], b"v").add_entries(2, []);
    log.write(&mut batch, false).unwrap();
    assert_eq!(log.get(1, b"").unwrap().unwrap(), b"");
    assert_eq!(log.get(1, &vec![1; 1 << 20]).unwrap().unwrap(), b"v");
    assert_eq!(log.first_index(2).unwrap(), None);
    batch.put(1, b"__x", b"v").put(1, b"y", b"v");
    assert_eq!(log.write(&mut batch, false).unwrap_err().code, Code::Invalid);
    assert_eq!(log.get(1, b"y").unwrap(), None);
    for settings in ["target-file-size = 3 MB", "target-file-size = \"3 stones\"", "recovery-mode = \"hopeful\"", "a\0b"] {
        assert_eq!(Engine::open_memory(settings).unwrap_err().code, Code::Invalid, "{settings}");
    }
    assert_eq!(Engine::open("", "").unwrap_err().code, Code::Invalid);
    assert_eq!(Engine::open("/proc/none/x", "").unwrap_err().code, Code::Folder);
    log.write(&mut LogBatch::new(), true).unwrap();
}

#[test]
fn writes_that_act_once() {
    let log = Engine::open_memory("").unwrap();
    let mut batch = LogBatch::new();
    batch.put(1, b"k", b"a");
    log.write_once(&mut batch, &[(1, 5)], true).unwrap();
    assert!(batch.is_empty());
    batch.put(1, b"k", b"b");
    log.write_once(&mut batch, &[(1, 5)], true).unwrap();
    assert_eq!(log.get(1, b"k").unwrap().unwrap(), b"a");
    batch.put(1, b"k", b"c");
    assert_eq!(log.write_once(&mut batch, &[(1, 6), (2, 0)], true).unwrap_err().code, Code::StaleNumber);
    assert_eq!(log.write_once(&mut batch, &[], true).unwrap_err().code, Code::Invalid);
    assert!(!batch.is_empty());
    log.write_once(&mut batch, &[(1, 6), (2, 1)], true).unwrap();
    assert_eq!(log.get(1, b"k").unwrap().unwrap(), b"c");
}

#[test]
fn in_memory() {
    exercise(&Engine::open_memory("").unwrap());
}

#[test]
fn in_a_folder() {
    let folder = folder("calls");
    let log = Engine::open(&folder, "").unwrap();
    exercise(&log);
    let error = Engine::open(&folder, "").unwrap_err();
    assert_eq!(error.code, Code::InUse);
    assert!(error.message.contains(folder.to_str().unwrap()));
    drop(log);
    let log = Engine::open(&folder, "target-file-size = \"4KB\"").unwrap();
    assert_eq!((log.first_index(7).unwrap(), log.last_index(7).unwrap()), (Some(10), Some(14)));
    log.close().unwrap();
    std::fs::remove_dir_all(folder).unwrap();
}

// A log of 4,000 entries of 1,000 bytes, and the file in which they stand.
fn make_entries(folder: &std::path::Path) -> std::path::PathBuf {
    let log = Engine::open(folder, "").unwrap();
    let mut batch = LogBatch::new();
    for index in 1..=4000 {
        batch.add_entries(1, [(index, [1u8; 1000].as_slice())]);
        log.write(&mut batch, false).unwrap();
    }
    log.close().unwrap();
    folder.join("0000000000000001.raftlog")
}

#[test]
fn watched_opening() {
    let folder = folder("watched");
    make_entries(&folder);
    let files = std::fs::read_dir(&folder).unwrap().map(|file| file.unwrap());
    let is_log = |file: &std::fs::DirEntry| file.path().extension().is_some();
    let size = files.filter(is_log).map(|file| file.metadata().unwrap().len()).sum();
    let mut told = Vec::new();
    let log = Engine::open_watched(&folder, "", |done, all| told.push((done, all))).unwrap();
    assert!(told.windows(2).all(|it| it[0] <= it[1]) && told.last() == Some(&(size, size)), "{told:?}");
    for at_random in [true, false] {
        log.expect_reads(at_random).unwrap();
        assert!([4000, 7, 2000].iter().all(|&index| log.get_entry(1, index).unwrap().unwrap().len() == 1000));
    }
    log.close().unwrap();
    let panics = || Engine::open_watched(&folder, "", |_, _| panic!("as wanted"));
    assert!(std::panic::catch_unwind(panics).is_err());
    Engine::open(&folder, "").unwrap();
    std::fs::remove_dir_all(folder).unwrap();
}

/// Four bytes after the last record, which the next opening cuts off and reports.
#[test]
fn cuts_that_are_told() {
    let folder = folder("cuts");
    let file = make_entries(&folder);
    let end = std::fs::metadata(&file).unwrap().len();
    let mut torn = std::fs::OpenOptions::new().append(true).open(&file).unwrap();
    torn.write_all(b"torn").unwrap();
    let told = Engine::open(&folder, "").unwrap().cuts();
    assert_eq!(told.len(), 1);
    assert_eq!((folder.join(&told[0].path), told[0].offset, told[0].len), (file, end, 4));
    assert_eq!(Engine::open(&folder, "").unwrap().cuts(), []);
    std::fs::remove_dir_all(folder).unwrap();
}

/// A copy of an open log, whose last file was used before.
#[test]
fn cuts_that_are_stale() {
    let (folder, copy) = (folder("used-again"), folder("used-again-copy"));
    let settings = "target-file-size = \"4KB\"\nenable-log-recycle = true\nprefill-for-recycle = false";
    let log = Engine::open(&folder, settings).unwrap();
    let mut batch = LogBatch::new();
    for i in 0..60 {
        batch.put(1, b"key", &[0; 200]);
        log.write(&mut batch, true).unwrap();
        if i == 40 {
            log.must_rewrite_append_queue().unwrap();
        }
    }
    std::fs::create_dir(&copy).unwrap();
    for file in std::fs::read_dir(&folder).unwrap() {
        let file = file.unwrap();
        std::fs::copy(file.path(), copy.join(file.file_name())).unwrap();
    }
    let cuts = Engine::open(&copy, "").unwrap().cuts();
    assert_eq!(cuts.iter().map(|cut| cut.stale).collect::<Vec<_>>(), [true]);
    std::fs::remove_dir_all(folder).unwrap();
    std::fs::remove_dir_all(copy).unwrap();
}

/// A log file that was deleted is reported by each opening until that is accepted.
#[test]
fn files_that_are_missing() {
    let folder = folder("missing");
    let settings = "target-file-size = \"4KB\"\npurge-threshold = \"1GB\"";
    let log = Engine::open_whole(&folder, settings).unwrap();
    let mut batch = LogBatch::new();
    for i in 0..60u8 {
        batch.put(1, &[i], &[0; 500]);
        log.write(&mut batch, true).unwrap();
    }
    assert_eq!(log.missing(), []);
    log.close().unwrap();
    std::fs::remove_file(folder.join("0000000000000003.raftlog")).unwrap();
    assert_eq!(Engine::open_whole(&folder, settings).unwrap_err().code, Code::Lost);
    for _ in 0..2 {
        let losses = Engine::open(&folder, settings).unwrap().missing();
        let told: Vec<_> = losses.iter().map(|it| (it.kind, it.is_rewrite, it.first, it.last)).collect();
        assert_eq!(told, [(LossKind::FileMissing, false, 3, 3)]);
    }
    Engine::open(&folder, settings).unwrap().must_rewrite_append_queue().unwrap();
    let kinds = |losses: Vec<raftlog::Loss>| losses.iter().map(|it| it.kind).collect::<Vec<_>>();
    assert_eq!(kinds(Engine::open(&folder, settings).unwrap().missing()), [LossKind::LostBefore]);
    raftlog::accept_missing(&folder).unwrap();
    assert_eq!(Engine::open_whole(&folder, settings).unwrap().missing(), []);
    assert_eq!(raftlog::accept_missing("").unwrap_err().code, Code::Invalid);
    std::fs::remove_dir_all(folder).unwrap();
}

/// A file that is cut behind an open log.
#[test]
fn bus_errors_that_are_survived() {
    raftlog::survive_bus_errors().unwrap();
    let folder = folder("cut");
    let file = make_entries(&folder);
    let log = Engine::open(&folder, "").unwrap();
    std::fs::OpenOptions::new().write(true).open(file).unwrap().set_len(1 << 20).unwrap();
    let read = |index| log.get_entry(1, index).map(|entry| entry.unwrap().len());
    let answers: Vec<_> = (1..=4000).map(|index| read(index).map_err(|error| error.code)).collect();
    assert!(answers.iter().all(|it| matches!(it, Ok(1000) | Err(Code::Corruption))));
    let done = answers.iter().filter(|it| it.is_ok()).count();
    assert!(answers[0].is_ok() && done < 2000, "{done}");
    drop(log);
    std::fs::remove_dir_all(folder).unwrap();
}

#[test]
fn by_threads() {
    let log = Arc::new(Engine::open_memory("").unwrap());
    let threads: Vec<_> = (0..4u64)
        .map(|thread| {
            let log = Arc::clone(&log);
            std::thread::spawn(move || {
                let mut batch = LogBatch::new();
                for i in 0..1000u64 {
                    batch.put(thread + 1, &i.to_le_bytes(), &(i * thread).to_le_bytes());
                    log.write(&mut batch, i % 10 == 0).unwrap();
                    assert_eq!(log.get(thread + 1, &i.to_le_bytes()).unwrap().unwrap(), (i * thread).to_le_bytes());
                }
            })
        })
        .collect();
    threads.into_iter().for_each(|thread| thread.join().unwrap());
    assert_eq!((1..5).map(|group| log.scan(group, None, None, false, None).unwrap().len()).sum::<usize>(), 4000);
}

/// Threads that write at once share syncs, and each gets the text of its own failure.
#[test]
fn by_rounds() {
    const WRITERS: u64 = 16;
    let folder = std::env::temp_dir().join(format!("raftlog-rounds-{}", std::process::id()));
    let log = Arc::new(Engine::open(&folder, "").unwrap());
    let write = |group: u64| {
        let log = Arc::clone(&log);
        std::thread::spawn(move || {
            let mut batch = LogBatch::new();
            for _ in 0..10 {
                batch.put(group, b"key", b"value");
                log.write(&mut batch, true).unwrap();
            }
            batch.add_entries(group, [(5, b"".as_slice()), (7, b"")]);
            let error = log.write(&mut batch, true).unwrap_err();
            assert!(error.code == Code::Gap && error.message.contains("gap"), "{error}");
            let error = log.fetch_entries(group, 2, 1, None).unwrap_err();
            assert!(error.code == Code::Invalid && !error.message.contains("gap"), "{error}");
        })
    };
    for turn in 1.. {
        let threads: Vec<_> = (1..=WRITERS).map(write).collect();
        threads.into_iter().for_each(|thread| thread.join().unwrap());
        let stats = log.stats().unwrap();
        let puts = turn * 10 * WRITERS;
        assert_eq!((stats.synced_changes, stats.batches), (puts, puts));
        assert!(stats.syncs > 0 && stats.bytes > 0 && !stats.sync_time.is_zero(), "{stats:?}");
        assert!(stats.writes > 0 && stats.files > 0 && stats.index_bytes > 0 && stats.longest_sync <= stats.sync_time, "{stats:?}");
        assert_eq!(stats.sync_times.iter().sum::<u64>(), stats.syncs);
        if stats.largest_round > 1 && stats.rounds < stats.changes {
            break;
        }
        assert!(turn < 50, "no sync was shared: {stats:?}");
    }
    drop(log);
    std::fs::remove_dir_all(folder).unwrap();
}
