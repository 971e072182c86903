//! Blocks and tables of random lists, beside the lists.
use sst::{Block, BlockHandle, BlockType, Config, DataBlock, Entry, Error, Hash, IndexBlock, KeyedBlockHandle};
use sst::{Merge, Run, RunHandles, StandardBloomFilterReader, Table, ValueType, Writer};
use sst::{build_filter, build_filter_by, compact, write_table};
use std::cell::Cell;
use std::io::Write;
use std::ops::Bound;

/// A row of a list.
type Row = (Vec<u8>, u64, ValueType, Vec<u8>);

/// Each hash function, and the other one.
const HASHES: [(Hash, Hash); 2] = [(Hash::Xxh3, Hash::Poly31), (Hash::Poly31, Hash::Xxh3)];

/// Numbers by SplitMix64.
struct Random(u64);

impl Random {
    fn below(&mut self, end: u64) -> u64 {
        self.0 = self.0.wrapping_add(0x9e3779b97f4a7c15);
        let mut x = self.0;
        x = (x ^ (x >> 30)).wrapping_mul(0xbf58476d1ce4e5b9);
        x = (x ^ (x >> 27)).wrapping_mul(0x94d049bb133111eb);
        (x ^ (x >> 31)) % end
    }
}

fn rows(seed: u64, count: usize) -> Vec<Row> {
    let mut random = Random(seed);
    let mut rows: Vec<Row> = (0..count)
        .map(|_| {
            let front = [&b"a"[..], b"common/", b"common/more/"][random.below(3) as usize];
            let key = [front, random.below(150).to_string().as_bytes()].concat();
            let seqno = if random.below(9) == 0 { u64::MAX } else { random.below(50) };
            match random.below(5) {
                0 => (key, seqno, ValueType::Tombstone, vec![]),
                1 => (key, seqno, ValueType::WeakTombstone, vec![]),
                _ => (key, seqno, ValueType::Value, vec![b'v'; random.below(40) as usize]),
            }
        })
        .collect();
    rows.sort_by(|a, b| a.0.cmp(&b.0).then(b.1.cmp(&a.1)));
    rows
}

fn entries(rows: &[Row]) -> Vec<Entry<'_>> {
    rows.iter().map(|(key, seqno, value_type, value)| Entry::new(key, *seqno, *value_type, value)).collect()
}

#[test]
fn blocks_are_windows_over_their_lists() {
    for seed in 0..60 {
        let rows = rows(seed, 1 + seed as usize * 3);
        let list = entries(&rows);
        let hash = HASHES[seed as usize / 3 % 2].0;
        let payload = DataBlock::encode_by(&list, 1 + seed as u8 % 17, (seed as u32 % 3, 2), hash).unwrap();
        let block = DataBlock::check_by(&payload, hash).unwrap();
        assert_eq!(block.len(), list.len());
        assert!(block.iter().eq(list.iter().copied()));
        assert!(block.iter().rev().eq(list.iter().rev().copied()));
        for (key, seqno, ..) in &rows {
            let first = list.iter().find(|e| e.key() == key.as_slice() && e.seqno < *seqno);
            assert_eq!(block.point_read(key, *seqno), first.copied());
            let mut iter = block.iter();
            assert!(iter.seek(key) && iter.seek_upper(key));
            assert!(iter.eq(list.iter().copied().filter(|e| e.key() == key.as_slice())));
            let mut iter = block.iter();
            iter.seek_exclusive(key);
            assert!(iter.eq(list.iter().copied().filter(|e| e.cmp_key(key).is_gt())));
            let mut iter = block.iter();
            iter.seek_upper_exclusive(key);
            assert!(iter.rev().eq(list.iter().rev().copied().filter(|e| e.cmp_key(key).is_lt())));
        }
    }
}

#[test]
fn buckets_of_the_other_hash_function_are_refused() {
    let rows = rows(7, 100);
    for (hash, other) in HASHES {
        let payload = DataBlock::encode_by(&entries(&rows), 16, (1, 1), hash).unwrap();
        assert_eq!(DataBlock::check_by(&payload, hash).unwrap().len(), 100);
        assert_eq!(DataBlock::check_by(&payload, other).err(), Some(Error::BadHashIndex));
    }
    // Without buckets no key is hashed.
    let payload = DataBlock::encode(&entries(&rows), 16, (0, 1)).unwrap();
    assert!(DataBlock::check(&payload).is_ok() && DataBlock::check_by(&payload, Hash::Poly31).is_ok());
}

fn written_in_pieces(list: &[Entry<'_>], config: Config) -> Vec<u8> {
    let mut writer = Writer::new(vec![], config);
    for entry in list {
        writer.add(entry).unwrap();
    }
    writer.finish().unwrap()
}

/// The library's error in that of a writer.
fn refused<T>(result: std::io::Result<T>) -> Option<Error> {
    result.err()?.get_ref()?.downcast_ref::<Error>().copied()
}

/// A writer that counts the calls, and takes so many bytes.
struct Short<'a>(&'a Cell<usize>, usize);

impl Write for Short<'_> {
    fn write(&mut self, bytes: &[u8]) -> std::io::Result<usize> {
        self.0.set(self.0.get() + 1);
        let taken = bytes.len().min(self.1);
        self.1 -= taken;
        Ok(taken)
    }

    fn flush(&mut self) -> std::io::Result<()> {
        Ok(())
    }
}

#[test]
fn large_tables_are_written_in_pieces() {
    let rows: Vec<Row> = (0..100_000u64)
        .map(|i| {
            let key = format!("user/{:08}", i / 2).into_bytes();
            (key, if i % 2 == 0 { 9 } else { 3 }, ValueType::Value, vec![b'a' + (i % 26) as u8; i as usize % 50])
        })
        .collect();
    let list = entries(&rows);
    for (bits_per_key, hash_ratio) in [(10, (0, 1)), (0, (3, 4))] {
        let config = Config { bits_per_key, hash_ratio, ..Config::default() };
        let file = write_table(&list, &config).unwrap();
        assert!(written_in_pieces(&list, config) == file);
        let table = Table::check(&file).unwrap();
        assert_eq!(table.verify().unwrap().entries, 100_000);
        assert!(table.iter().eq(list.iter().copied()));
    }
    let calls = Cell::new(0);
    let mut writer = Writer::new(Short(&calls, 1 << 20), Config::default());
    let failed = list.iter().find_map(|entry| writer.add(entry).err());
    assert_eq!(failed.unwrap().kind(), std::io::ErrorKind::WriteZero);
    assert!(calls.get() > 200, "blocks are written while entries are added");
    let long = vec![b'x'; 2_000_000];
    let wide = [Entry::new(b"a", 1, ValueType::Value, &long), Entry::new(b"b", 1, ValueType::Value, b"")];
    let config = Config { block_size: 1, ..Config::default() };
    assert!(written_in_pieces(&wide, config) == write_table(&wide, &config).unwrap());
}

#[test]
fn tables_are_their_lists() {
    for seed in 0..40 {
        let rows = rows(seed, 1 + seed as usize * 12);
        let list = entries(&rows);
        let config = Config {
            block_size: [1, 100, 4096][seed as usize % 3],
            restart_interval: 1 + seed as u8 % 17,
            index_interval: 1 + seed as u8 % 3,
            hash_ratio: (seed as u32 % 3, 2),
            bits_per_key: seed as u32 % 2 * 10,
            hash: HASHES[seed as usize / 2 % 2].0,
        };
        let (hash, other) = HASHES[seed as usize / 2 % 2];
        let file = write_table(&list, &config).unwrap();
        assert!(written_in_pieces(&list, config) == file);
        let table = Table::check_by(&file, hash).unwrap();
        assert_eq!(Table::check_by(&file, other).err(), Some(Error::ChecksumMismatch));
        assert!(Table::refused_at_by(&file, other).is_some() && Table::refused_at_by(&file, hash).is_none());
        assert_eq!(table.verify().unwrap().entries, list.len() as u64);
        assert!(unsafe { Table::trusted_by(&file, hash) }.unwrap().iter().eq(list.iter().copied()));
        assert!(table.iter().rev().eq(list.iter().rev().copied()));
        let opened = table.open();
        for (i, low) in rows.iter().enumerate().step_by(5) {
            let high = &rows[(i * 7 + 3) % rows.len()].0;
            let first = list.iter().find(|e| e.key() == low.0.as_slice() && e.seqno < 25);
            assert_eq!(table.get(&low.0, 25), first.copied());
            assert_eq!(opened.get(&low.0, 25), first.copied());
            for from in [Bound::Included(&low.0), Bound::Excluded(&low.0), Bound::Unbounded] {
                for to in [Bound::Included(high), Bound::Excluded(high), Bound::Unbounded] {
                    let within = list.iter().copied().filter(|e| {
                        (match from {
                            Bound::Included(key) => e.cmp_key(key).is_ge(),
                            Bound::Excluded(key) => e.cmp_key(key).is_gt(),
                            Bound::Unbounded => true,
                        }) && match to {
                            Bound::Included(key) => e.cmp_key(key).is_le(),
                            Bound::Excluded(key) => e.cmp_key(key).is_lt(),
                            Bound::Unbounded => true,
                        }
                    });
                    let within: Vec<_> = within.collect();
                    assert_eq!(table.range::<Vec<u8>, _>((from, to)).collect::<Vec<_>>(), within);
                    // From both ends in turn.
                    let (mut scan, mut fronts, mut backs) = (table.range::<Vec<u8>, _>((from, to)), vec![], vec![]);
                    while let Some(entry) = scan.next() {
                        fronts.push(entry);
                        backs.extend(scan.next_back());
                    }
                    fronts.extend(backs.into_iter().rev());
                    assert_eq!(fronts, within);
                    let below: Vec<_> = within.iter().copied().filter(|e| e.seqno < 25).collect();
                    assert!(table.range_below::<Vec<u8>, _>((from, to), 25).eq(below.iter().copied()));
                    assert!(table.range_below::<Vec<u8>, _>((from, to), 25).rev().eq(below.into_iter().rev()));
                }
            }
        }
    }
}

#[test]
fn changed_bytes_are_refused() {
    let rows = rows(7, 100);
    let file = write_table(&entries(&rows), &Config::default()).unwrap();
    for at in 0..file.len() - 24 {
        let mut changed = file.clone();
        changed[at] ^= 1;
        assert!(Table::check(&changed).is_err(), "byte {at}");
        let BlockHandle { offset, size } = Table::refused_at(&changed).unwrap().handle;
        assert!((offset..offset + u64::from(size)).contains(&(at as u64)), "byte {at}");
    }
    for len in 0..file.len() {
        assert!(Table::check(&file[..len]).is_err(), "{len} bytes");
    }
    assert_eq!((Table::refused_at(&file), Table::refused_at(b"")), (None, None));
    assert_eq!(Table::check(b"").err(), Some(Error::Truncated));
    assert_eq!(write_table(&[], &Config::default()), Err(Error::BadArgument));
    assert_eq!(DataBlock::encode(&[], 1, (0, 1)), Err(Error::BadArgument));
    assert_eq!(refused(Writer::new(vec![], Config::default()).finish()), Some(Error::BadArgument));
    let mut writer = Writer::new(vec![], Config { block_size: 1, ..Config::default() });
    assert_eq!(refused(writer.add(&Entry::new(b"", 1, ValueType::Value, b""))), Some(Error::BadArgument));
    writer.add(&Entry::new(b"b", 5, ValueType::Value, b"")).unwrap();
    assert_eq!(refused(writer.add(&Entry::new(b"a", 9, ValueType::Value, b""))), Some(Error::OutOfOrder));
    assert_eq!(refused(writer.add(&Entry::new(b"b", 6, ValueType::Value, b""))), Some(Error::OutOfOrder));
    writer.add(&Entry::new(b"b", 5, ValueType::Value, b"")).unwrap();
    assert_eq!(Table::check(&writer.finish().unwrap()).unwrap().iter().count(), 2);
}

/// What a compaction of lists, the newest first, has to leave.
fn staying<'a>(lists: &[Vec<Entry<'a>>], snapshots: &[u64], is_bottom: bool, from: &[u8]) -> Vec<Entry<'a>> {
    let mut all: Vec<Entry<'a>> = lists.concat();
    all.retain(|entry| entry.cmp_key(from).is_gt());
    all.sort_by(|a, b| a.key().cmp(&b.key()).then(b.seqno.cmp(&a.seqno)));
    let stays = |at: &usize| {
        let (entry, same) = (&all[*at], |other: &&Entry| other.key() == all[*at].key());
        let seen = || snapshots.iter().filter(|snapshot| entry.seqno < **snapshot);
        let is_found = |s: &u64| !all[..*at].iter().filter(same).any(|newer| newer.seqno < *s);
        let hides = |older: &Entry| snapshots.iter().any(|s| older.seqno < *s && *s <= entry.seqno);
        let goes = is_bottom && entry.is_tombstone() && !all[at + 1..].iter().filter(same).any(hides);
        seen().count() == 0 || (seen().any(is_found) && !goes)
    };
    (0..all.len()).filter(stays).map(|at| all[at]).collect()
}

#[test]
fn compactions_leave_what_is_read() {
    for seed in 0..60 {
        let mut random = Random(seed);
        let lists: Vec<_> = (0..3).map(|n| rows(seed * 3 + n, 1 + seed as usize * 4)).collect();
        let lists: Vec<_> = lists.iter().map(|rows| entries(rows)).collect();
        let small = Config { block_size: 100, ..Config::default() };
        let by = |n: usize| Config { hash: HASHES[n % 2].0, ..small };
        let files: Vec<_> = lists.iter().enumerate().map(|(n, list)| write_table(list, &by(n)).unwrap()).collect();
        let checked = |n: usize| Table::check_by(&files[n], HASHES[n % 2].0).unwrap();
        let tables: Vec<_> = (0..3).map(checked).collect();
        let snapshots: Vec<_> = (0..random.below(5)).map(|_| random.below(55)).collect();
        let from = lists[0][random.below(lists[0].len() as u64) as usize].key();
        let config = Config {
            block_size: [1, 1 << 30][seed as usize % 2],
            restart_interval: 1 + seed as u8 % 17,
            hash_ratio: (seed as u32 % 3, 2),
            ..by(seed as usize / 2)
        };
        let is_bottom = seed % 3 > 0;
        let left = staying(&lists, &snapshots, is_bottom, &from);
        let made = compact::<[u8], _>(&tables, (Bound::Excluded(&*from), Bound::Unbounded), &snapshots, is_bottom, &config);
        assert_eq!(made.unwrap(), (!left.is_empty()).then(|| write_table(&left, &config).unwrap()));
    }
    let config = Config::default();
    assert_eq!(compact::<[u8], _>(&[], .., &[], false, &config), Ok(None));
    let none = Config { restart_interval: 0, ..config };
    assert_eq!(compact::<[u8], _>(&[], .., &[], false, &none), Err(Error::BadArgument));
}

#[test]
fn merges_are_their_lists_in_order() {
    for seed in 0..60 {
        let mut random = Random(seed);
        let mut lists: Vec<_> = (0..3).map(|n| rows(seed * 3 + n, 1 + seed as usize * 4)).collect();
        // The last one has the entries of the first with other values.
        lists.push(lists[0].iter().map(|row| (row.0.clone(), row.1, ValueType::Value, vec![b'w'])).collect());
        let lists: Vec<_> = lists.iter().map(|rows| entries(rows)).collect();
        let by = |n: usize| Config { block_size: 100, hash: HASHES[n % 2].0, ..Config::default() };
        let files: Vec<_> = lists.iter().enumerate().map(|(n, list)| write_table(list, &by(n)).unwrap()).collect();
        let checked = |n: usize| Table::check_by(&files[n], HASHES[n % 2].0).unwrap();
        let tables = [0, 1, 2, 3].map(checked);
        let snapshots: Vec<_> = (0..random.below(5)).map(|_| random.below(55)).collect();
        let from = lists[0][random.below(lists[0].len() as u64) as usize].key();
        let merge = || Merge::range::<[u8], _>(&tables, (Bound::Excluded(&*from), Bound::Unbounded));
        for snapshots in [&[][..], &snapshots] {
            let left = staying(&lists, snapshots, false, &from);
            let below: Vec<_> = left.iter().copied().filter(|entry| entry.seqno < 25).collect();
            assert_eq!(merge().snapshots(snapshots).collect::<Result<Vec<_>, _>>(), Ok(left));
            assert_eq!(merge().below(25).snapshots(snapshots).collect::<Result<Vec<_>, _>>(), Ok(below));
        }
        let runs: Vec<Run> = tables.iter().map(|table| **table).collect();
        assert!(Merge::new(&runs).eq(Merge::new(&tables.iter().collect::<Vec<_>>())));
        assert_eq!(Merge::new(&tables).count(), lists.concat().len());
    }
    assert!(Merge::new(&[] as &[Table]).next().is_none());
}

#[test]
fn runs_are_tables_without_footers() {
    for (hash, other) in HASHES {
        let rows = rows(7, 100);
        for bits_per_key in [0, 10] {
            let file = write_table(&entries(&rows), &Config { bits_per_key, hash, ..Config::default() }).unwrap();
            let table = Table::check_by(&file, hash).unwrap();
            let (bytes, handles) = (table.bytes(), table.handles());
            assert_eq!((bytes.len() + 24, handles.filter.is_some()), (file.len(), bits_per_key > 0));
            let run = Run::check_by(bytes, handles, hash).unwrap();
            assert!(run.iter().eq(table.iter()) && run.handles() == handles && run.verify() == table.verify());
            assert!(unsafe { Run::trusted_by(bytes, handles, hash) }.iter().rev().eq(table.iter().rev()));
            assert_eq!(Run::check_by(bytes, handles, other).err(), Some(Error::ChecksumMismatch));
            assert_eq!(Run::refused_at_by(bytes, handles, hash), None);
            let wrong = RunHandles { filter: Some(handles.index), ..handles };
            assert_eq!(Run::check_by(bytes, wrong, hash).err(), Some(Error::InvalidTag));
            let end = Run::refused_at_by(bytes, wrong, hash).unwrap();
            assert_eq!((end.block_type, end.handle), (BlockType::Filter, handles.index));
        }
    }
}

#[test]
fn filters_hide_no_key() {
    let keys: Vec<_> = (0..1000u32).map(u32::to_le_bytes).collect();
    let lent: Vec<&[u8]> = keys.iter().map(|key| &key[..]).collect();
    let payload = build_filter(&lent, 10).unwrap();
    let filter = StandardBloomFilterReader::new(&payload).unwrap();
    assert!(lent.iter().all(|key| filter.contains(key)));
    assert!((1000..11_000u32).filter(|n| filter.contains(&n.to_le_bytes())).count() < 300);
    assert_eq!(StandardBloomFilterReader::new(b"none").err(), Some(Error::Truncated));
    let payload = build_filter_by(&lent, 10, Hash::Poly31).unwrap();
    let filter = StandardBloomFilterReader::new_by(&payload, Hash::Poly31).unwrap();
    assert!(lent.iter().all(|key| filter.contains(key)));
    let filter = StandardBloomFilterReader::new(&payload).unwrap();
    assert!(lent.iter().filter(|key| filter.contains(key)).count() < 100);
}

#[test]
fn index_blocks_lead_to_the_block() {
    let keys = [&b"b"[..], b"bcdef", b"def"];
    let handles: Vec<_> = keys
        .iter()
        .zip([(0, 6000), (6000, 7000), (13_000, 5000)])
        .map(|(end_key, (offset, size))| KeyedBlockHandle { end_key, seqno: 0, handle: BlockHandle { offset, size } })
        .collect();
    let payload = IndexBlock::encode(&handles, 2).unwrap();
    let index = IndexBlock::check(&payload).unwrap();
    assert_eq!(index.len(), 3);
    assert_eq!(index.find(b"a", 5), Some(handles[0].handle));
    assert_eq!(index.find(b"bcd", 5), Some(handles[1].handle));
    assert_eq!(index.find(b"z", 5), None);
}

#[test]
fn frames_are_read_as_written() {
    let mut out = b"before".to_vec();
    let block = Block { block_type: BlockType::Filter, payload: b"payload" };
    block.write_into(&mut out).unwrap();
    assert_eq!(Block::from_frame(&out[6..]), Ok(block));
    assert_eq!(Block::from_frame_by(&out[6..], Hash::Poly31), Err(Error::ChecksumMismatch));
    let mut other = vec![];
    block.write_into_by(&mut other, Hash::Poly31).unwrap();
    assert_eq!(Block::from_frame_by(&other, Hash::Poly31), Ok(block));
    assert_eq!(Block::from_frame(&other), Err(Error::ChecksumMismatch));
    out[40] ^= 1;
    assert!(matches!(Block::from_frame(&out[6..]), Err(Error::ChecksumMismatch)));
}
