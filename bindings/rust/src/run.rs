//! Runs: blocks behind each other, with their index and filter.
use crate::{BlockHandle, BlockType, Entry, Hash, Result, SeqNo, demand, ffi};
use std::ops::{Bound, RangeBounds};

/// Where the frames of a run's index and of its filter are.
#[derive(Clone, Copy, Debug, PartialEq, Eq)]
pub struct RunHandles {
    /// The index.
    pub index: BlockHandle,
    /// The filter, if there is one.
    pub filter: Option<BlockHandle>,
}

impl RunHandles {
    fn given(&self) -> ffi::RunHandles {
        let filter = self.filter.unwrap_or(BlockHandle { offset: 0, size: 0 });
        ffi::RunHandles {
            index_offset: self.index.offset,
            filter_offset: filter.offset,
            index_size: self.index.size,
            filter_size: filter.size,
        }
    }
}

/// What a check of a run counts.
#[derive(Clone, Copy, Debug, PartialEq, Eq)]
pub struct Summary {
    /// The number of blocks.
    pub blocks: usize,
    /// The number of entries.
    pub entries: u64,
    /// The least sequence number.
    pub least_seqno: SeqNo,
    /// The greatest sequence number.
    pub greatest_seqno: SeqNo,
}

/// Where a check of a run ended: the frame that it read last, by its handle.
#[derive(Clone, Copy, Debug, PartialEq, Eq)]
pub struct CheckEnd {
    /// The type of the frame.
    pub block_type: BlockType,
    /// The index of the data block; 0 for index and filter.
    pub block: usize,
    /// Where the frame is.
    pub handle: BlockHandle,
}

/// A run over bytes that are borrowed, such as a part of a mapped file, and its handles. Of a [`Table`](crate::Table)
/// it is all but the footer, in which the handles are. Reads test nothing and copy nothing.
///
/// ```
/// # use sst::{Config, Entry, Run, Table, ValueType, write_table};
/// # fn main() -> sst::Result<()> {
/// let file = write_table(&[Entry::new(b"ann", 2, ValueType::Value, b"x")], &Config::default())?;
/// let table = Table::check(&file)?;
/// let (bytes, handles) = (table.bytes(), table.handles());
/// let run = Run::check(bytes, handles)?;
/// assert_eq!(run.get(b"ann", u64::MAX).unwrap().value, b"x");
/// assert!(run.iter().eq(table.iter()));
/// # Ok(())
/// # }
/// ```
#[derive(Clone, Copy)]
pub struct Run<'a> {
    bytes: &'a [u8],
    handles: ffi::RunHandles,
    hash: Hash,
}

impl<'a> Run<'a> {
    /// Checks all bytes of a run, as [`Run::verify`] does.
    pub fn check(bytes: &'a [u8], handles: RunHandles) -> Result<Run<'a>> {
        Run::check_by(bytes, handles, Hash::Xxh3)
    }

    /// Checks all bytes of a run that was written by this hash function. One by another is refused, mostly as
    /// [`Error::ChecksumMismatch`](crate::Error::ChecksumMismatch).
    pub fn check_by(bytes: &'a [u8], handles: RunHandles, hash: Hash) -> Result<Run<'a>> {
        Run::over(bytes, handles.given(), hash).checked()
    }

    /// Takes a run and tests nothing.
    ///
    /// # Safety
    ///
    /// [`Run::check`] accepted these bytes with these handles, or the library wrote them.
    pub unsafe fn trusted(bytes: &'a [u8], handles: RunHandles) -> Run<'a> {
        Run::over(bytes, handles.given(), Hash::Xxh3)
    }

    /// Takes a run by this hash function, and tests nothing.
    ///
    /// # Safety
    ///
    /// [`Run::check_by`] accepted these bytes with these handles and this hash function, or the library wrote them
    /// with this one.
    pub unsafe fn trusted_by(bytes: &'a [u8], handles: RunHandles, hash: Hash) -> Run<'a> {
        Run::over(bytes, handles.given(), hash)
    }

    // Of bytes that no check accepted, to be checked.
    pub(crate) fn over(bytes: &'a [u8], handles: ffi::RunHandles, hash: Hash) -> Run<'a> {
        Run { bytes, handles, hash }
    }

    pub(crate) fn checked(self) -> Result<Run<'a>> {
        self.verify()?;
        Ok(self)
    }

    /// Checks all bytes again, and returns what was counted. Refuses by what is met first.
    pub fn verify(&self) -> Result<Summary> {
        let mut found = ffi::Summary::default();
        demand(unsafe {
            ffi::sst_run_check(self.bytes.as_ptr(), self.bytes.len(), &self.handles, self.hash.number(), &mut found)
        })?;
        let ffi::Summary { blocks, entries, least_seqno, greatest_seqno } = found;
        Ok(Summary { blocks, entries, least_seqno, greatest_seqno })
    }

    /// Checks all bytes of a run again that [`Run::check`] refused, and returns where the check ended. There is no
    /// such frame where they are a run, or an allocation fails.
    pub fn refused_at(bytes: &[u8], handles: RunHandles) -> Option<CheckEnd> {
        Run::refused_at_by(bytes, handles, Hash::Xxh3)
    }

    /// Returns where the check of a run by this hash function ended, as [`Run::refused_at`] does.
    pub fn refused_at_by(bytes: &[u8], handles: RunHandles, hash: Hash) -> Option<CheckEnd> {
        Run::over(bytes, handles.given(), hash).refusal()
    }

    pub(crate) fn refusal(&self) -> Option<CheckEnd> {
        let (mut found, mut end) = (ffi::Summary::default(), ffi::CheckEnd::default());
        let status = unsafe {
            ffi::sst_run_check_at(
                self.bytes.as_ptr(), self.bytes.len(), &self.handles, self.hash.number(), &mut found, &mut end,
            )
        };
        (status != 0 && status != ffi::MEMORY).then(|| CheckEnd {
            block_type: [BlockType::Data, BlockType::Index, BlockType::Filter][usize::from(end.part)],
            block: end.block,
            handle: BlockHandle { offset: end.offset, size: end.size },
        })
    }

    /// Returns the bytes: those of a table without its footer.
    pub fn bytes(&self) -> &'a [u8] {
        self.bytes
    }

    /// Returns the handles.
    pub fn handles(&self) -> RunHandles {
        let ffi::RunHandles { index_offset, filter_offset, index_size, filter_size } = self.handles;
        RunHandles {
            index: BlockHandle { offset: index_offset, size: index_size },
            filter: (filter_size > 0).then_some(BlockHandle { offset: filter_offset, size: filter_size }),
        }
    }

    /// Returns the first entry of a key strictly below a sequence number, a tombstone too.
    pub fn get(&self, key: &[u8], seqno: SeqNo) -> Option<Entry<'a>> {
        let mut at = ffi::Place::default();
        let status = unsafe {
            ffi::sst_run_get(
                self.bytes.as_ptr(), self.bytes.len(), &self.handles, self.hash.number(), key.as_ptr(), key.len(),
                seqno, &mut at,
            )
        };
        (status != ffi::NOT_FOUND).then(|| self.entry(&at))
    }

    /// Opens the run for many finds. Takes 8 bytes for each block.
    pub fn open(&self) -> OpenRun<'a> {
        let mut opened = OpenRun { run: *self, open: ffi::OpenRun::default(), numbers: Vec::new() };
        opened.fill();
        opened.numbers.resize(opened.open.blocks, 0);
        opened.fill();
        opened
    }

    /// Returns an iterator over all entries, from both ends.
    pub fn iter(&self) -> Range<'a> {
        self.range::<[u8], _>(..)
    }

    /// Returns an iterator over the entries of a range of keys, from both ends: all versions, tombstones
    /// too.
    pub fn range<K: AsRef<[u8]> + ?Sized, R: RangeBounds<K>>(&self, keys: R) -> Range<'a> {
        self.range_under(keys, None)
    }

    /// Returns an iterator over the entries of a range of keys with sequence numbers strictly below one.
    pub fn range_below<K: AsRef<[u8]> + ?Sized, R: RangeBounds<K>>(&self, keys: R, seqno: SeqNo) -> Range<'a> {
        self.range_under(keys, Some(seqno))
    }

    fn range_under<K: AsRef<[u8]> + ?Sized, R: RangeBounds<K>>(&self, keys: R, seqno: Option<SeqNo>) -> Range<'a> {
        let window = self.window(&bounds(keys));
        Range { run: *self, window, seqno, front: Vec::new().into_iter(), back: Vec::new().into_iter() }
    }

    // The window of the entries of a range of keys.
    pub(crate) fn window(&self, (from, to): &Bounds) -> ffi::Window {
        let (mut window, none) = (ffi::Window::default(), Vec::new());
        let (start, end) = (from.as_ref().unwrap_or(&none), to.as_ref().unwrap_or(&none));
        unsafe {
            ffi::sst_run_range(
                self.bytes.as_ptr(), self.bytes.len(), &self.handles, from.is_some().into(), start.as_ptr(),
                start.len(), to.is_some().into(), end.as_ptr(), end.len(), &mut window,
            )
        };
        window
    }

    // The run as the calls take it that take several.
    pub(crate) fn given(&self) -> ffi::Run {
        ffi::Run { bytes: self.bytes.as_ptr(), len: self.bytes.len(), handles: self.handles }
    }

    pub(crate) fn entry(&self, at: &ffi::Place) -> Entry<'a> {
        Entry::at(self.bytes, at)
    }
}

impl<'a> AsRef<Run<'a>> for Run<'a> {
    fn as_ref(&self) -> &Run<'a> {
        self
    }
}

/// A run that was opened for many finds, which [`Run::open`] does once. It keeps a number for each block, by which a
/// find mostly goes to a block and does not search the index. All else is as of the [`Run`].
///
/// ```
/// # use sst::{Config, Entry, Table, ValueType, write_table};
/// # fn main() -> sst::Result<()> {
/// let file = write_table(&[Entry::new(b"ann", 2, ValueType::Value, b"x")], &Config::default())?;
/// let table = Table::check(&file)?;
/// let opened = table.open();
/// assert_eq!(opened.get(b"ann", u64::MAX), table.get(b"ann", u64::MAX));
/// assert_eq!(opened.iter().count(), 1);
/// # Ok(())
/// # }
/// ```
#[derive(Clone)]
pub struct OpenRun<'a> {
    run: Run<'a>,
    open: ffi::OpenRun,
    numbers: Vec<u64>,
}

impl<'a> OpenRun<'a> {
    // Opens the run, with its table where there is a number for each block.
    fn fill(&mut self) {
        let (run, numbers) = (&self.run, &mut self.numbers);
        unsafe {
            ffi::sst_run_open(
                run.bytes.as_ptr(), run.bytes.len(), &run.handles, run.hash.number(), numbers.as_mut_ptr(),
                numbers.len(), &mut self.open,
            )
        };
    }

    /// Returns the first entry of a key strictly below a sequence number, a tombstone too, as [`Run::get`] does.
    pub fn get(&self, key: &[u8], seqno: SeqNo) -> Option<Entry<'a>> {
        let (run, mut at) = (&self.run, ffi::Place::default());
        let status = unsafe {
            ffi::sst_run_find(
                run.bytes.as_ptr(), run.bytes.len(), &self.open, self.numbers.as_ptr(), self.numbers.len(),
                key.as_ptr(), key.len(), seqno, &mut at,
            )
        };
        (status != ffi::NOT_FOUND).then(|| run.entry(&at))
    }
}

impl<'a> std::ops::Deref for OpenRun<'a> {
    type Target = Run<'a>;

    fn deref(&self) -> &Run<'a> {
        &self.run
    }
}

/// The number of places that are read at once.
pub(crate) const BATCH: usize = 64;

/// An iterator over the entries of a range of keys. It keeps the places of a batch for each end.
pub struct Range<'a> {
    run: Run<'a>,
    window: ffi::Window,
    seqno: Option<SeqNo>,
    // What is left of the last batch from each end, in the order in which it was read.
    front: std::vec::IntoIter<ffi::Place>,
    back: std::vec::IntoIter<ffi::Place>,
}

impl<'a> Range<'a> {
    // The next batch from an end.
    fn batch(&mut self, reverse: bool) -> std::vec::IntoIter<ffi::Place> {
        let (mut places, mut count) = (Vec::<ffi::Place>::with_capacity(BATCH), 0);
        let status = unsafe {
            ffi::sst_run_scan(
                self.run.bytes.as_ptr(), self.run.bytes.len(), &self.run.handles, &mut self.window,
                self.seqno.is_some().into(), self.seqno.unwrap_or(0), reverse.into(), places.as_mut_ptr(), BATCH,
                &mut count,
            )
        };
        debug_assert_eq!(status, 0);
        // The call wrote so many places; of a window that is none of the run's it writes none.
        unsafe { places.set_len(count) };
        places.into_iter()
    }
}

impl<'a> Iterator for Range<'a> {
    type Item = Entry<'a>;

    fn next(&mut self) -> Option<Entry<'a>> {
        if self.front.len() == 0 {
            self.front = self.batch(false);
        }
        let at = self.front.next().or_else(|| self.back.next_back())?;
        Some(self.run.entry(&at))
    }
}

impl DoubleEndedIterator for Range<'_> {
    fn next_back(&mut self) -> Option<Self::Item> {
        if self.back.len() == 0 {
            self.back = self.batch(true);
        }
        let at = self.back.next().or_else(|| self.front.next_back())?;
        Some(self.run.entry(&at))
    }
}

// The key that a range of keys begins with, and the one before which it ends.
pub(crate) type Bounds = (Option<Vec<u8>>, Option<Vec<u8>>);

// Those of a range. The least key above another is that with a byte 0 more.
pub(crate) fn bounds<K: AsRef<[u8]> + ?Sized>(keys: impl RangeBounds<K>) -> Bounds {
    let above = |key: &K| [key.as_ref(), &[0]].concat();
    let from = match keys.start_bound() {
        Bound::Included(key) => Some(key.as_ref().to_vec()),
        Bound::Excluded(key) => Some(above(key)),
        Bound::Unbounded => None,
    };
    let to = match keys.end_bound() {
        Bound::Included(key) => Some(above(key)),
        Bound::Excluded(key) => Some(key.as_ref().to_vec()),
        Bound::Unbounded => None,
    };
    (from, to)
}
