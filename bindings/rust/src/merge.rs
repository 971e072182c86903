//! Tables merged into one order.
use crate::run::{BATCH, bounds};
use crate::{Entry, Result, Run, SeqNo, demand, ffi};
use std::ops::RangeBounds;

/// An iterator over the entries of several tables or runs in one order: by key, then by sequence number falling, and of
/// equal ones those of the earlier table first, so the newest table stands first. All versions, tombstones too. The
/// tables may be by either hash function.
///
/// A step may fail with [`Error::Memory`](crate::Error::Memory): no entry is lost, and the next step tries again. The
/// iterator keeps the places of a batch.
///
/// ```
/// # use sst::{Config, Entry, Merge, Table, ValueType, write_table};
/// # fn main() -> sst::Result<()> {
/// let newer = write_table(&[Entry::new(b"ann", 7, ValueType::Value, b"new")], &Config::default())?;
/// let older = [Entry::new(b"ann", 2, ValueType::Value, b"old"), Entry::new(b"bob", 3, ValueType::Value, b"x")];
/// let older = write_table(&older, &Config::default())?;
/// let tables = [Table::check(&newer)?, Table::check(&older)?];
/// let seqnos = |merge: Merge| merge.map(|entry| Ok(entry?.seqno)).collect::<sst::Result<Vec<_>>>();
/// assert_eq!(seqnos(Merge::new(&tables))?, [7, 2, 3]);
/// assert_eq!(seqnos(Merge::new(&tables).below(7))?, [2, 3]);
/// assert_eq!(seqnos(Merge::new(&tables).snapshots(&[9]))?, [7, 3]);
/// assert_eq!(seqnos(Merge::range::<&str, _>(&tables, "b"..))?, [3]);
/// # Ok(())
/// # }
/// ```
pub struct Merge<'a> {
    runs: Vec<Run<'a>>,
    windows: Vec<ffi::Window>,
    seqno: Option<SeqNo>,
    snapshots: Vec<SeqNo>,
    // The last batch, and how many of it were returned.
    batch: Vec<ffi::Merged>,
    returned: usize,
}

impl<'a> Merge<'a> {
    /// Merges all entries of tables, the newest first.
    pub fn new(tables: &[impl AsRef<Run<'a>>]) -> Merge<'a> {
        Merge::range::<[u8], _>(tables, ..)
    }

    /// Merges the entries of a range of keys.
    pub fn range<K: AsRef<[u8]> + ?Sized, R: RangeBounds<K>>(tables: &[impl AsRef<Run<'a>>], keys: R) -> Merge<'a> {
        let bounds = bounds(keys);
        let runs: Vec<_> = tables.iter().map(|table| *table.as_ref()).collect();
        let windows = runs.iter().map(|run| run.window(&bounds)).collect();
        // Each batch opens each run anew.
        let batch = Vec::with_capacity(BATCH.max(8 * runs.len()));
        Merge { runs, windows, seqno: None, snapshots: Vec::new(), batch, returned: 0 }
    }

    /// Lists only the entries with sequence numbers strictly below one. To be said before the first step, as the
    /// snapshots are.
    pub fn below(self, seqno: SeqNo) -> Merge<'a> {
        Merge { seqno: Some(seqno), ..self }
    }

    /// Leaves out what [`compact`](crate::compact) leaves out for these snapshots above the bottom. A snapshot sees the
    /// entries strictly below it: one that some of them see goes where each of these sees one of its key that comes
    /// before it, also if that one is not [below](Merge::below) the number.
    pub fn snapshots(self, snapshots: &[SeqNo]) -> Merge<'a> {
        Merge { snapshots: snapshots.to_vec(), ..self }
    }

    fn next_batch(&mut self) -> Result<()> {
        self.batch.clear();
        self.returned = 0;
        let runs: Vec<_> = self.runs.iter().map(Run::given).collect();
        let (room, mut count) = (self.batch.capacity(), 0);
        demand(unsafe {
            ffi::sst_merge_scan(
                runs.as_ptr(), runs.len(), self.windows.as_mut_ptr(), self.windows.len(), self.seqno.is_some().into(),
                self.seqno.unwrap_or(0), self.snapshots.as_ptr(), self.snapshots.len(), self.batch.as_mut_ptr(), room,
                &mut count,
            )
        })?;
        // The call wrote so many.
        unsafe { self.batch.set_len(count) };
        Ok(())
    }
}

impl<'a> Iterator for Merge<'a> {
    type Item = Result<Entry<'a>>;

    fn next(&mut self) -> Option<Result<Entry<'a>>> {
        if self.returned == self.batch.len() {
            if let Err(error) = self.next_batch() {
                return Some(Err(error));
            }
        }
        let at = self.batch.get(self.returned)?;
        self.returned += 1;
        Some(Ok(self.runs[at.run].entry(&at.place)))
    }
}
