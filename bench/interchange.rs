//! Random lists as blocks, frames and filters of lsm-tree and of the library for C: the bytes have to be
//! the same, and each side has to read them.
use crate::table::block::{BlockType, ParsedItem};
use crate::table::filter::standard_bloom::{Builder, StandardBloomFilterReader};
use crate::table::filter::BloomConstructionPolicy;
use crate::table::{Block, BlockHandle, BlockOffset, DataBlock, IndexBlock, KeyedBlockHandle};
use crate::{CompressionType, InternalValue, SeqNo, ValueType};
use std::io::Write;

/// As `examples/c/sst.h` declares them.
#[repr(C)]
struct Entry {
    key: *const u8,
    key_len: usize,
    value: *const u8,
    value_len: usize,
    seqno: u64,
    value_type: u8,
}

#[repr(C)]
#[derive(Default)]
struct Place {
    seqno: u64,
    prefix_offset: usize,
    prefix_len: usize,
    key_offset: usize,
    key_len: usize,
    value_offset: usize,
    value_len: usize,
    value_type: u8,
}

#[repr(C)]
struct KeyedHandle {
    end_key: *const u8,
    end_key_len: usize,
    seqno: u64,
    offset: u64,
    size: u32,
}

#[repr(C)]
struct Bytes {
    data: *const u8,
    len: usize,
}

const OK: u32 = 0;
const NOT_FOUND: u32 = 16;
const XXH3: u32 = 0;

unsafe extern "C" {
    fn sst_data_block_encode(
        entries: *const Entry, count: usize, interval: u8, num: u32, den: u32, hash: u32, out: *mut u8,
        cap: usize, len: *mut usize,
    ) -> u32;
    fn sst_data_block_check(payload: *const u8, len: usize, hash: u32, count: *mut usize) -> u32;
    fn sst_data_block_find(
        payload: *const u8, len: usize, hash: u32, key: *const u8, key_len: usize, below: u64, place: *mut Place,
    ) -> u32;
    fn sst_index_block_encode(
        handles: *const KeyedHandle, count: usize, interval: u8, out: *mut u8, cap: usize, len: *mut usize,
    ) -> u32;
    fn sst_index_block_check(payload: *const u8, len: usize, count: *mut usize) -> u32;
    fn sst_filter_build(
        keys: *const Bytes, count: usize, bits: u32, hash: u32, out: *mut u8, cap: usize, len: *mut usize,
    ) -> u32;
    fn sst_filter_may_contain(payload: *const u8, len: usize, hash: u32, key: *const u8, key_len: usize) -> u32;
    fn sst_frame_write(
        payload: *const u8, len: usize, block_type: u8, hash: u32, out: *mut u8, cap: usize, out_len: *mut usize,
    ) -> u32;
    fn sst_frame_check(
        bytes: *const u8, len: usize, hash: u32, block_type: *mut u8, payload_len: *mut usize,
    ) -> u32;
}

/// splitmix64.
struct Random(u64);

impl Random {
    fn next(&mut self) -> u64 {
        self.0 = self.0.wrapping_add(0x9e37_79b9_7f4a_7c15);
        let z = (self.0 ^ (self.0 >> 30)).wrapping_mul(0xbf58_476d_1ce4_e5b9);
        let z = (z ^ (z >> 27)).wrapping_mul(0x94d0_49bb_1331_11eb);
        z ^ (z >> 31)
    }

    fn below(&mut self, n: u64) -> u64 {
        self.next() % n
    }

    fn bytes(&mut self, len: u64, letters: u64) -> Vec<u8> {
        (0..len).map(|_| self.below(letters) as u8).collect()
    }
}

const TYPES: [ValueType; 4] =
    [ValueType::Value, ValueType::Tombstone, ValueType::WeakTombstone, ValueType::Indirection];

/// An ordered list of entries: keys of few or many letters, short or long, and versions of the same key.
fn entries(random: &mut Random) -> Vec<InternalValue> {
    let (count, letters) = (1 + random.below(300), [2, 26, 256][random.below(3) as usize]);
    let (longest, most) = ([3, 20, 300][random.below(3) as usize], [2, 1000, u64::MAX][random.below(3) as usize]);
    let mut list = vec![];
    for _ in 0..count {
        let len = 1 + random.below(longest);
        let key = random.bytes(len, letters);
        let value_type = TYPES[random.below(4) as usize];
        let len = if value_type.is_tombstone() { 0 } else { random.below(60) };
        let value = random.bytes(len, 256);
        list.push(InternalValue::from_components(key, value, random.below(most), value_type));
    }
    list.sort_by(|a, b| a.key.cmp(&b.key));
    list.dedup_by(|a, b| a.key.user_key == b.key.user_key && a.key.seqno == b.key.seqno);
    list
}

/// What a call of the library writes into as much room as there is.
fn written(call: impl FnOnce(*mut u8, usize, *mut usize) -> u32) -> Vec<u8> {
    let (mut out, mut len) = (vec![0; 1 << 20], 0);
    assert_eq!(call(out.as_mut_ptr(), out.len(), &mut len), OK);
    out.truncate(len);
    out
}

/// The frame of a payload, of both, the same; each reads it.
fn frame(payload: &[u8], block_type: BlockType) -> Block {
    let number = u8::from(block_type);
    let mut theirs = vec![];
    Block::write_into(&mut theirs, payload, block_type, CompressionType::None).expect("writes");
    let ours = written(|out, cap, len| unsafe {
        sst_frame_write(payload.as_ptr(), payload.len(), number, XXH3, out, cap, len)
    });
    assert!(ours == theirs, "frames differ");
    if let Some(path) = std::env::var_os("FRAMES") {
        let file = std::fs::OpenOptions::new().create(true).append(true).open(path);
        file.and_then(|mut file| file.write_all(&theirs)).expect("keeps the frame");
    }
    let (mut found, mut len) = (9, 0);
    assert_eq!(unsafe { sst_frame_check(theirs.as_ptr(), theirs.len(), XXH3, &mut found, &mut len) }, OK);
    assert_eq!((found, len), (number, payload.len()));
    let block = Block::from_reader(&mut ours.as_slice(), CompressionType::None).expect("reads");
    assert!(block.header.block_type == block_type && *block.data == *payload, "another block");
    block
}

/// What `count` an accepting check gives.
fn checked(call: impl FnOnce(*mut usize) -> u32) -> usize {
    let mut count = 0;
    assert_eq!(call(&mut count), OK);
    count
}

/// A key below a number, of lsm-tree's block and of the library's bytes.
fn read(block: &DataBlock, payload: &[u8], key: &[u8], below: SeqNo) {
    let theirs = block.point_read(key, below).map(|entry| (entry.key.seqno, entry.value.to_vec()));
    let mut place = Place::default();
    let status = unsafe {
        sst_data_block_find(payload.as_ptr(), payload.len(), XXH3, key.as_ptr(), key.len(), below, &mut place)
    };
    let ours = (status == OK)
        .then(|| (place.seqno, payload[place.value_offset..][..place.value_len].to_vec()));
    assert!(ours.is_some() || status == NOT_FOUND);
    assert!(ours == theirs, "reads differ: {ours:?} {theirs:?}");
}

/// Upstream passes an entry where a bucket names an interval without the key, so it is asked for keys that
/// are there, at numbers above their newest.
fn data_block(random: &mut Random, list: &[InternalValue]) -> usize {
    let interval = 1 + random.below(20) as u8;
    let (num, den) = [(0, 1), (1, 2), (1, 1), (5, 4), (3, 2), (2, 1)][random.below(6) as usize];
    let given: Vec<Entry> = list.iter().map(|entry| Entry {
        key: entry.key.user_key.as_ptr(),
        key_len: entry.key.user_key.len(),
        value: entry.value.as_ptr(),
        value_len: entry.value.len(),
        seqno: entry.key.seqno,
        value_type: u8::from(entry.key.value_type),
    }).collect();
    let theirs = DataBlock::encode_into_vec(list, interval, num as f32 / den as f32).expect("encodes");
    let ours = written(|out, cap, len| unsafe {
        sst_data_block_encode(given.as_ptr(), given.len(), interval, num, den, XXH3, out, cap, len)
    });
    assert!(ours == theirs, "data blocks differ: {} entries, interval {interval}, {num}/{den}", list.len());
    let count = checked(|count| unsafe { sst_data_block_check(theirs.as_ptr(), theirs.len(), XXH3, count) });
    assert_eq!(count, list.len());
    let block = DataBlock::new(frame(&ours, BlockType::Data));
    let items: Vec<_> = block.iter().map(|item| item.materialize(block.as_slice())).collect();
    assert!(items.len() == list.len(), "entries differ");
    for (item, entry) in items.iter().zip(list) {
        assert!(item.key.cmp(&entry.key).is_eq() && item.key.value_type == entry.key.value_type
            && *item.value == *entry.value, "entries differ");
    }
    for _ in 0..20 {
        let entry = &list[random.below(list.len() as u64) as usize];
        read(&block, &ours, &entry.key.user_key, entry.key.seqno.saturating_add(1));
        read(&block, &ours, &entry.key.user_key, u64::MAX);
    }
    ours.len()
}

fn index_block(random: &mut Random, list: &[InternalValue]) -> usize {
    let (mut handles, mut offset) = (vec![], 0);
    for entry in list {
        let size = 33 + random.below(100_000) as u32;
        let handle = BlockHandle::new(BlockOffset(offset), size);
        handles.push(KeyedBlockHandle::new(entry.key.user_key.clone(), entry.key.seqno, handle));
        offset += u64::from(size);
    }
    let given: Vec<KeyedHandle> = handles.iter().zip(list).map(|(handle, entry)| KeyedHandle {
        end_key: entry.key.user_key.as_ptr(),
        end_key_len: entry.key.user_key.len(),
        seqno: entry.key.seqno,
        offset: *handle.offset(),
        size: handle.size(),
    }).collect();
    let theirs = IndexBlock::encode_into_vec(&handles).expect("encodes");
    let ours = written(|out, cap, len| unsafe {
        sst_index_block_encode(given.as_ptr(), given.len(), 1, out, cap, len)
    });
    assert!(ours == theirs, "index blocks differ");
    let count = checked(|count| unsafe { sst_index_block_check(theirs.as_ptr(), theirs.len(), count) });
    assert_eq!(count, list.len());
    let block = IndexBlock::new(frame(&ours, BlockType::Index));
    let items: Vec<_> = block.iter().map(|item| item.materialize(block.as_slice())).collect();
    assert!(items.iter().zip(&handles).all(|(a, b)| a.end_key() == b.end_key()
        && a.offset() == b.offset() && a.size() == b.size()), "handles differ");
    ours.len()
}

fn filter(random: &mut Random, list: &[InternalValue]) -> usize {
    let bits = 1 + random.below(20) as u32;
    let given: Vec<Bytes> = list.iter().map(|entry| Bytes {
        data: entry.key.user_key.as_ptr(),
        len: entry.key.user_key.len(),
    }).collect();
    let mut builder = BloomConstructionPolicy::BitsPerKey(bits as f32).init(list.len());
    for entry in list {
        builder.set_with_hash(Builder::get_hash(&entry.key.user_key));
    }
    let theirs = builder.build();
    let ours = written(|out, cap, len| unsafe {
        sst_filter_build(given.as_ptr(), given.len(), bits, XXH3, out, cap, len)
    });
    assert!(ours == theirs, "filters differ: {} keys, {bits} bits", list.len());
    let block = frame(&ours, BlockType::Filter);
    let reader = StandardBloomFilterReader::new(&block.data).expect("reads");
    let mut keys: Vec<Vec<u8>> = list.iter().map(|entry| entry.key.user_key.to_vec()).collect();
    keys.extend((0..20).map(|_| random.bytes(9, 256)));
    for (number, key) in keys.iter().enumerate() {
        let status = unsafe {
            sst_filter_may_contain(theirs.as_ptr(), theirs.len(), XXH3, key.as_ptr(), key.len())
        };
        assert_eq!(reader.contains(key), status == OK);
        assert!(status == OK || number >= list.len());
    }
    ours.len()
}

pub fn main() {
    let lists: u64 = std::env::args().nth(1).and_then(|word| word.parse().ok()).expect("a number of lists");
    let mut bytes = 0;
    for seed in 1..=lists {
        let mut random = Random(seed);
        let list = entries(&mut random);
        bytes += data_block(&mut random, &list);
        bytes += index_block(&mut random, &list);
        bytes += filter(&mut random, &list);
    }
    println!("{lists} lists: {} blocks and their frames, {bytes} bytes: the same, and read by both", 3 * lists);
}
