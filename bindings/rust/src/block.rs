//! Data blocks, index blocks, filters and frames.
use crate::{Entry, Error, Hash, Result, SeqNo, demand, ffi, given};
use std::cmp::Ordering;

/// A data block over a payload that is borrowed.
#[derive(Clone, Copy)]
pub struct DataBlock<'a> {
    payload: &'a [u8],
    hash: Hash,
    len: usize,
}

impl<'a> DataBlock<'a> {
    /// Checks any bytes: they are the encoding of an ordered list of entries exactly if this is `Ok`.
    pub fn check(payload: &'a [u8]) -> Result<DataBlock<'a>> {
        DataBlock::check_by(payload, Hash::Xxh3)
    }

    /// Checks any bytes as [`DataBlock::check`] does, with a hash index by this hash function.
    pub fn check_by(payload: &'a [u8], hash: Hash) -> Result<DataBlock<'a>> {
        let mut len = 0;
        demand(unsafe { ffi::sst_data_block_check(payload.as_ptr(), payload.len(), hash.number(), &mut len) })?;
        Ok(DataBlock { payload, hash, len })
    }

    /// Encodes entries: at least one, by key rising and then by sequence number falling, with a restart
    /// interval of at least 1, and so many buckets of the hash index for so many entries: (3, 4).
    pub fn encode(entries: &[Entry<'_>], restart_interval: u8, ratio: (u32, u32)) -> Result<Vec<u8>> {
        DataBlock::encode_by(entries, restart_interval, ratio, Hash::Xxh3)
    }

    /// Encodes entries as [`DataBlock::encode`] does, with a hash index by this hash function.
    pub fn encode_by(
        entries: &[Entry<'_>], restart_interval: u8, ratio: (u32, u32), hash: Hash,
    ) -> Result<Vec<u8>> {
        let (rows, _keys) = given(entries);
        let ((num, den), hash) = (ratio, hash.number());
        ffi::filled(4096, |out, cap, len| unsafe {
            ffi::sst_data_block_encode(rows.as_ptr(), rows.len(), restart_interval, num, den, hash, out, cap, len)
        })
        .map_err(Error::of)
    }

    /// Returns the number of entries, at least 1.
    #[allow(clippy::len_without_is_empty)]
    pub fn len(&self) -> usize {
        self.len
    }

    /// Returns the first entry of a key strictly below a sequence number, a tombstone too.
    pub fn point_read(&self, needle: &[u8], seqno: SeqNo) -> Option<Entry<'a>> {
        let mut at = ffi::Place::default();
        let payload = self.payload;
        let status = unsafe {
            ffi::sst_data_block_find(
                payload.as_ptr(), payload.len(), self.hash.number(), needle.as_ptr(), needle.len(), seqno, &mut at,
            )
        };
        (status != ffi::NOT_FOUND).then(|| Entry::at(payload, &at))
    }

    /// Returns an iterator over the entries from both ends, which keeps a place for each.
    pub fn iter(&self) -> Iter<'a> {
        let mut places = Vec::<ffi::Place>::with_capacity(self.len);
        let (mut window, mut count) = (ffi::Window { end_index: self.len, ..Default::default() }, 0);
        unsafe {
            ffi::sst_data_block_scan(
                self.payload.as_ptr(), self.payload.len(), &mut window, 0, 0, 0, places.as_mut_ptr(), self.len,
                &mut count,
            );
            // The call wrote a place for each entry.
            places.set_len(count);
        }
        Iter::over(self.payload, places)
    }
}

/// An iterator over the entries of a block, from both ends, which can seek from both.
pub struct Iter<'a> {
    bytes: &'a [u8],
    places: Vec<ffi::Place>,
    lo: usize,
    hi: usize,
}

impl<'a> Iter<'a> {
    pub(crate) fn over(bytes: &'a [u8], places: Vec<ffi::Place>) -> Iter<'a> {
        let hi = places.len();
        Iter { bytes, places, lo: 0, hi }
    }

    fn at(&self, index: usize) -> Entry<'a> {
        Entry::at(self.bytes, &self.places[index])
    }

    // The index of the first entry left for whose key this is false.
    fn first_not(&self, holds: impl Fn(Ordering) -> bool, needle: &[u8]) -> usize {
        let left = &self.places[self.lo..self.hi];
        self.lo + left.partition_point(|at| holds(Entry::at(self.bytes, at).cmp_key(needle)))
    }

    /// Moves the front to the first entry whose key is at least the needle. Returns whether an entry is
    /// left and the first one has the needle as its key.
    pub fn seek(&mut self, needle: &[u8]) -> bool {
        self.lo = self.first_not(Ordering::is_lt, needle);
        self.lo < self.hi && self.at(self.lo).cmp_key(needle).is_eq()
    }

    /// Moves the back after the last entry whose key is at most the needle. Returns whether an entry is
    /// left and the last one has the needle as its key.
    pub fn seek_upper(&mut self, needle: &[u8]) -> bool {
        self.hi = self.first_not(Ordering::is_le, needle);
        self.lo < self.hi && self.at(self.hi - 1).cmp_key(needle).is_eq()
    }

    /// Moves the front to the first entry whose key is above the needle. Returns whether one is left.
    pub fn seek_exclusive(&mut self, needle: &[u8]) -> bool {
        self.lo = self.first_not(Ordering::is_le, needle);
        self.lo < self.hi
    }

    /// Moves the back after the last entry whose key is below the needle. Returns whether one is left.
    pub fn seek_upper_exclusive(&mut self, needle: &[u8]) -> bool {
        self.hi = self.first_not(Ordering::is_lt, needle);
        self.lo < self.hi
    }
}

impl<'a> Iterator for Iter<'a> {
    type Item = Entry<'a>;

    fn next(&mut self) -> Option<Entry<'a>> {
        (self.lo < self.hi).then(|| {
            self.lo += 1;
            self.at(self.lo - 1)
        })
    }

    fn size_hint(&self) -> (usize, Option<usize>) {
        (self.hi - self.lo, Some(self.hi - self.lo))
    }
}

impl DoubleEndedIterator for Iter<'_> {
    fn next_back(&mut self) -> Option<Self::Item> {
        (self.lo < self.hi).then(|| {
            self.hi -= 1;
            self.at(self.hi)
        })
    }
}

impl ExactSizeIterator for Iter<'_> {}

/// Where the frame of a block is.
#[derive(Clone, Copy, Debug, PartialEq, Eq)]
pub struct BlockHandle {
    /// Where it begins, in bytes.
    pub offset: u64,
    /// Its length in bytes.
    pub size: u32,
}

/// A handle with the key and the sequence number of its block's last entry.
#[derive(Clone, Copy, Debug, PartialEq, Eq)]
pub struct KeyedBlockHandle<'a> {
    /// The key of the last entry.
    pub end_key: &'a [u8],
    /// Its sequence number.
    pub seqno: SeqNo,
    /// Where the frame is.
    pub handle: BlockHandle,
}

/// An index block over a payload that is borrowed.
#[derive(Clone, Copy)]
pub struct IndexBlock<'a> {
    payload: &'a [u8],
    len: usize,
}

impl<'a> IndexBlock<'a> {
    /// Checks any bytes: they are the encoding of an ordered list of handles exactly if this is `Ok`.
    pub fn check(payload: &'a [u8]) -> Result<IndexBlock<'a>> {
        let mut len = 0;
        demand(unsafe { ffi::sst_index_block_check(payload.as_ptr(), payload.len(), &mut len) })?;
        Ok(IndexBlock { payload, len })
    }

    /// Encodes handles: at least one, by end key rising and then by sequence number falling, at a restart
    /// interval of at least 1.
    pub fn encode(handles: &[KeyedBlockHandle<'_>], restart_interval: u8) -> Result<Vec<u8>> {
        let rows: Vec<_> = handles
            .iter()
            .map(|keyed| ffi::KeyedHandle {
                end_key: keyed.end_key.as_ptr(),
                end_key_len: keyed.end_key.len(),
                seqno: keyed.seqno,
                offset: keyed.handle.offset,
                size: keyed.handle.size,
            })
            .collect();
        ffi::filled(4096, |out, cap, len| unsafe {
            ffi::sst_index_block_encode(rows.as_ptr(), rows.len(), restart_interval, out, cap, len)
        })
        .map_err(Error::of)
    }

    /// Returns the number of handles, at least 1.
    #[allow(clippy::len_without_is_empty)]
    pub fn len(&self) -> usize {
        self.len
    }

    /// Returns the one block that can hold the first entry of a key strictly below a sequence number: the
    /// first whose last entry does not sort before it.
    pub fn find(&self, needle: &[u8], seqno: SeqNo) -> Option<BlockHandle> {
        let mut at = ffi::Handle::default();
        let payload = self.payload;
        let status = unsafe {
            ffi::sst_index_block_find(
                payload.as_ptr(), payload.len(), needle.as_ptr(), needle.len(), seqno, &mut at,
            )
        };
        (status != ffi::NOT_FOUND).then_some(BlockHandle { offset: at.offset, size: at.size })
    }
}

/// Builds the payload of a Bloom filter of keys, at least one, at so many bits for each, at least 1.
pub fn build_filter(keys: &[&[u8]], bits_per_key: u32) -> Result<Vec<u8>> {
    build_filter_by(keys, bits_per_key, Hash::Xxh3)
}

/// Builds a filter as [`build_filter`] does, by this hash function.
pub fn build_filter_by(keys: &[&[u8]], bits_per_key: u32, hash: Hash) -> Result<Vec<u8>> {
    let rows: Vec<_> = keys.iter().map(|key| ffi::Bytes { data: key.as_ptr(), len: key.len() }).collect();
    ffi::filled(4096, |out, cap, len| unsafe {
        ffi::sst_filter_build(rows.as_ptr(), rows.len(), bits_per_key, hash.number(), out, cap, len)
    })
    .map_err(Error::of)
}

/// The filter in bytes that are borrowed.
#[derive(Clone, Copy)]
pub struct StandardBloomFilterReader<'a> {
    payload: &'a [u8],
    hash: Hash,
}

impl<'a> StandardBloomFilterReader<'a> {
    /// Opens the filter in any bytes.
    pub fn new(payload: &'a [u8]) -> Result<StandardBloomFilterReader<'a>> {
        StandardBloomFilterReader::new_by(payload, Hash::Xxh3)
    }

    /// Opens the filter in any bytes, whose keys were hashed by this hash function. The bytes do not tell: by
    /// another one, keys are hidden.
    pub fn new_by(payload: &'a [u8], hash: Hash) -> Result<StandardBloomFilterReader<'a>> {
        let filter = StandardBloomFilterReader { payload, hash };
        match filter.ask(b"") {
            0 | ffi::NOT_FOUND => Ok(filter),
            status => Err(Error::of(status)),
        }
    }

    fn ask(&self, key: &[u8]) -> u32 {
        let (payload, hash) = (self.payload, self.hash.number());
        unsafe { ffi::sst_filter_may_contain(payload.as_ptr(), payload.len(), hash, key.as_ptr(), key.len()) }
    }

    /// Whether a key may have been inserted; it may where it was.
    pub fn contains(&self, key: &[u8]) -> bool {
        self.ask(key) == 0
    }
}

/// What a frame's payload is.
#[derive(Clone, Copy, Debug, PartialEq, Eq)]
#[allow(missing_docs)]
pub enum BlockType {
    Data = 0,
    Index = 1,
    Filter = 2,
    Meta = 3,
}

/// A block: its type and its payload.
#[derive(Clone, Copy, Debug, PartialEq, Eq)]
pub struct Block<'a> {
    /// The type.
    pub block_type: BlockType,
    /// The payload.
    pub payload: &'a [u8],
}

impl<'a> Block<'a> {
    /// Reads the frame in all these bytes, and verifies its checksums.
    pub fn from_frame(frame: &'a [u8]) -> Result<Block<'a>> {
        Block::from_frame_by(frame, Hash::Xxh3)
    }

    /// Reads a frame as [`Block::from_frame`] does, with checksums by this hash function.
    pub fn from_frame_by(frame: &'a [u8], hash: Hash) -> Result<Block<'a>> {
        let (mut byte, mut len) = (0, 0);
        demand(unsafe { ffi::sst_frame_check(frame.as_ptr(), frame.len(), hash.number(), &mut byte, &mut len) })?;
        let types = [BlockType::Data, BlockType::Index, BlockType::Filter, BlockType::Meta];
        Ok(Block { block_type: types[usize::from(byte)], payload: &frame[33..][..len] })
    }

    /// Appends the frame of the block.
    pub fn write_into(&self, out: &mut Vec<u8>) -> Result<()> {
        self.write_into_by(out, Hash::Xxh3)
    }

    /// Appends the frame of the block, with checksums by this hash function.
    pub fn write_into_by(&self, out: &mut Vec<u8>, hash: Hash) -> Result<()> {
        let Block { block_type, payload } = *self;
        let frame = ffi::filled(payload.len() + 33, |out, cap, len| unsafe {
            ffi::sst_frame_write(payload.as_ptr(), payload.len(), block_type as u8, hash.number(), out, cap, len)
        });
        out.extend(frame.map_err(Error::of)?);
        Ok(())
    }
}
