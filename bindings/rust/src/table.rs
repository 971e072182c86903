//! Table files.
use crate::run::bounds;
use crate::{BlockHandle, CheckEnd, Entry, Error, Hash, Result, Run, SeqNo, ValueType, demand, ffi, given};
use std::io::{self, Write};
use std::ops::{Deref, RangeBounds};

const FOOTER_LEN: usize = 24;

/// How a table is written.
#[derive(Clone, Copy, Debug)]
pub struct Config {
    /// A block ends with the entry with which its keys and values have this many bytes.
    pub block_size: usize,
    /// The number of entries in a restart interval of a block, at least 1.
    pub restart_interval: u8,
    /// The number of handles in a restart interval of the index, at least 1.
    pub index_interval: u8,
    /// So many buckets of a block's hash index for so many entries; (0, 1): none.
    pub hash_ratio: (u32, u32),
    /// The bits of the filter for each entry; 0: no filter.
    pub bits_per_key: u32,
    /// The hash function of hash indexes, filter and checksums.
    pub hash: Hash,
}

impl Default for Config {
    fn default() -> Config {
        Config {
            block_size: 4096,
            restart_interval: 16,
            index_interval: 1,
            hash_ratio: (0, 1),
            bits_per_key: 10,
            hash: Hash::Xxh3,
        }
    }
}

impl Config {
    fn given(&self) -> ffi::RunConfig {
        let (num, den) = self.hash_ratio;
        ffi::RunConfig {
            num,
            den,
            bits_per_key: self.bits_per_key,
            restart_interval: self.restart_interval,
            index_interval: self.index_interval,
            hash: self.hash as u16,
        }
    }
}

/// Writes entries as a table file: at least one, by key rising and then by sequence number falling.
pub fn write_table(entries: &[Entry<'_>], config: &Config) -> Result<Vec<u8>> {
    let (rows, _keys) = given(entries);
    let (mut cuts, mut held, mut room) = (Vec::new(), 0, 4096);
    for (index, row) in rows.iter().enumerate() {
        if index > 0 && held >= config.block_size {
            cuts.push(index);
            held = 0;
        }
        held += row.key_len + row.value_len;
        room += row.key_len + row.value_len + 64;
    }
    let config = config.given();
    let mut handles = ffi::RunHandles::default();
    let mut file = ffi::filled(room, |out, cap, len| unsafe {
        ffi::sst_run_write(
            rows.as_ptr(), rows.len(), cuts.as_ptr(), cuts.len(), &config, out, cap, len, &mut handles,
        )
    })
    .map_err(Error::of)?;
    file.extend(footer(&handles)?);
    Ok(file)
}

/// Writes a table file entry by entry: the bytes that [`write_table`] writes of the same entries, a frame at a
/// time as they are finished. Kept are the entries of one block, and of the blocks before it a handle for each
/// and, where there is a filter, a hash of 8 bytes for each entry.
///
/// ```
/// # use sst::{Config, Entry, Table, ValueType, Writer};
/// # fn main() -> Result<(), Box<dyn std::error::Error>> {
/// let mut writer = Writer::new(Vec::new(), Config::default()); // or any std::io::Write
/// for n in 0..1000u64 {
///     writer.add(&Entry::new(&n.to_be_bytes(), 1, ValueType::Value, b"value"))?;
/// }
/// let file = writer.finish()?;
/// assert_eq!(Table::check(&file)?.verify()?.entries, 1000);
/// # Ok(())
/// # }
/// ```
pub struct Writer<W: Write> {
    sink: W,
    config: Config,
    // The entries of the open block, and the bytes of their keys and values.
    rows: Vec<Row>,
    bytes: Vec<u8>,
    handles: Vec<(Vec<u8>, SeqNo, BlockHandle)>,
    hashes: Vec<u64>,
    // What a call writes into.
    out: Vec<u8>,
    // The number of bytes that were written.
    len: u64,
}

struct Row {
    key_len: usize,
    value_len: usize,
    seqno: SeqNo,
    value_type: ValueType,
}

impl<W: Write> Writer<W> {
    /// Begins a table.
    pub fn new(sink: W, config: Config) -> Writer<W> {
        let (rows, bytes, handles, hashes) = (Vec::new(), Vec::new(), Vec::new(), Vec::new());
        let out = vec![0; config.block_size.saturating_add(4096).min(1 << 20)];
        Writer { sink, config, rows, bytes, handles, hashes, out, len: 0 }
    }

    /// Adds an entry, and writes the block before it where that has its size.
    ///
    /// # Errors
    ///
    /// An error that is [`Error::OutOfOrder`] where the entry sorts before the one added last, and
    /// [`Error::BadArgument`] where its key is empty or has more than 65535 bytes; the table goes on without
    /// it. After another error of the library, or one of the writer, the table cannot be finished.
    pub fn add(&mut self, entry: &Entry<'_>) -> io::Result<()> {
        let key = entry.key();
        if key.is_empty() || key.len() > 65_535 {
            return Err(Error::BadArgument.into());
        }
        if let Some((last, seqno)) = self.last() {
            if entry.cmp_key(last).then(seqno.cmp(&entry.seqno)).is_lt() {
                return Err(Error::OutOfOrder.into());
            }
        }
        if !self.rows.is_empty() && self.bytes.len() >= self.config.block_size {
            self.close_block()?;
        }
        self.bytes.extend_from_slice(&key);
        self.bytes.extend_from_slice(entry.value);
        let (seqno, value_type) = (entry.seqno, entry.value_type);
        self.rows.push(Row { key_len: key.len(), value_len: entry.value.len(), seqno, value_type });
        Ok(())
    }

    /// Ends the table: writes the last block, the index, the filter and the footer. Returns the writer, which
    /// is not flushed.
    ///
    /// # Errors
    ///
    /// [`Error::BadArgument`] where no entry was added; else an error of the library or of the writer.
    pub fn finish(mut self) -> io::Result<W> {
        self.close_block()?;
        let handles = std::mem::take(&mut self.handles);
        let given: Vec<_> = handles.iter().map(|(end_key, seqno, handle)| ffi::KeyedHandle {
            end_key: end_key.as_ptr(),
            end_key_len: end_key.len(),
            seqno: *seqno,
            offset: handle.offset,
            size: handle.size,
        }).collect();
        let (hashes, config) = (std::mem::take(&mut self.hashes), self.config.given());
        let mut run = ffi::RunHandles::default();
        self.write(|out, cap, len| unsafe {
            ffi::sst_run_end_write(
                given.as_ptr(), given.len(), hashes.as_ptr(), hashes.len(), &config, out, cap, len, &mut run,
            )
        })?;
        self.write(|out, cap, len| unsafe { ffi::sst_footer_write(&run, out, cap, len) })?;
        Ok(self.sink)
    }

    // The key and the number of the entry added last.
    fn last(&self) -> Option<(&[u8], SeqNo)> {
        match self.rows.last() {
            Some(row) => {
                let end = self.bytes.len() - row.value_len;
                Some((&self.bytes[end - row.key_len..end], row.seqno))
            }
            None => self.handles.last().map(|(key, seqno, _)| (&key[..], *seqno)),
        }
    }

    fn close_block(&mut self) -> io::Result<()> {
        let mut rest = &self.bytes[..];
        let entries: Vec<_> = self.rows.iter().map(|row| {
            let (key, behind) = rest.split_at(row.key_len);
            let (value, behind) = behind.split_at(row.value_len);
            rest = behind;
            ffi::Entry {
                key: key.as_ptr(),
                key_len: key.len(),
                value: value.as_ptr(),
                value_len: value.len(),
                seqno: row.seqno,
                value_type: row.value_type as u8,
            }
        }).collect();
        let (key, seqno) = self.last().map(|(key, seqno)| (key.to_vec(), seqno)).ok_or(Error::BadArgument)?;
        let mut hashes = vec![0; if self.config.bits_per_key > 0 { entries.len() } else { 0 }];
        let (offset, config) = (self.len, self.config.given());
        let size = self.write(|out, cap, len| unsafe {
            ffi::sst_run_block_write(
                entries.as_ptr(), entries.len(), &config, out, cap, len, hashes.as_mut_ptr(), hashes.len(),
            )
        })?;
        self.hashes.extend(hashes);
        self.handles.push((key, seqno, BlockHandle { offset, size: size as u32 }));
        self.rows.clear();
        self.bytes.clear();
        Ok(())
    }

    // Writes what a call makes that says how much capacity it needs. Returns its length.
    fn write(&mut self, mut call: impl FnMut(*mut u8, usize, &mut usize) -> u32) -> io::Result<usize> {
        let mut len = 0;
        let mut status = call(self.out.as_mut_ptr(), self.out.len(), &mut len);
        if status == ffi::NO_ROOM {
            self.out.resize(len, 0);
            status = call(self.out.as_mut_ptr(), self.out.len(), &mut len);
        }
        demand(status)?;
        self.sink.write_all(&self.out[..len])?;
        self.len += len as u64;
        Ok(len)
    }
}

/// Compacts tables into one table file; `None` where no entry stays. The newest table stands first: of entries with
/// the same key and sequence number those of the earlier table come first. Of each table only the entries of a range of
/// keys are taken.
///
/// The entries stay that a read below one of the snapshots, or below any number that is at least as large as
/// all of them, can find; without snapshots all. `is_bottom` says that no older version of a key in the range is
/// elsewhere: tombstones that are below a snapshot, and hide nothing that stays, go then.
///
/// The tables may be by either hash function; [`Config::hash`] is that of the new one. A block ends with the
/// entry with which its entries have [`Config::block_size`] bytes as they are encoded, where keys share prefixes.
///
/// ```
/// # use sst::{Config, Entry, Table, ValueType, compact, write_table};
/// # fn main() -> sst::Result<()> {
/// let newer = write_table(&[Entry::new(b"ann", 7, ValueType::Tombstone, b"")], &Config::default())?;
/// let older = [Entry::new(b"ann", 2, ValueType::Value, b"x"), Entry::new(b"bob", 3, ValueType::Value, b"y")];
/// let older = write_table(&older, &Config::default())?;
/// let tables = [Table::check(&newer)?, Table::check(&older)?];
/// let all = compact::<[u8], _>(&tables, .., &[8], true, &Config::default())?.unwrap();
/// assert_eq!(Table::check(&all)?.iter().map(|entry| entry.seqno).collect::<Vec<_>>(), [3]);
/// assert_eq!(compact::<&str, _>(&tables, ..="ann", &[8], true, &Config::default())?, None);
/// # Ok(())
/// # }
/// ```
///
/// # Errors
///
/// [`Error::BadArgument`] where an interval or the denominator is 0; [`Error::TooLong`] where what stays does not fit a
/// table, [`Error::Memory`].
pub fn compact<K: AsRef<[u8]> + ?Sized, R: RangeBounds<K>>(
    tables: &[Table<'_>], keys: R, snapshots: &[SeqNo], is_bottom: bool, config: &Config,
) -> Result<Option<Vec<u8>>> {
    let runs: Vec<_> = tables.iter().map(|table| table.given()).collect();
    let (from, to) = bounds(keys);
    let (none, given) = (Vec::new(), config.given());
    let (start, end) = (from.as_ref().unwrap_or(&none), to.as_ref().unwrap_or(&none));
    let mut handles = ffi::RunHandles::default();
    let room = runs.iter().map(|run| run.len).sum::<usize>() + 4096;
    let made = ffi::filled(room, |out, cap, len| unsafe {
        ffi::sst_compact(
            runs.as_ptr(), runs.len(), from.is_some().into(), start.as_ptr(), start.len(), to.is_some().into(),
            end.as_ptr(), end.len(), snapshots.as_ptr(), snapshots.len(), is_bottom.into(), config.block_size, &given,
            out, cap, len, &mut handles,
        )
    });
    match made {
        Ok(mut file) => {
            file.extend(footer(&handles)?);
            Ok(Some(file))
        }
        Err(ffi::NOT_FOUND) => Ok(None),
        Err(status) => Err(Error::of(status)),
    }
}

// The bytes that end a table file.
fn footer(handles: &ffi::RunHandles) -> Result<Vec<u8>> {
    let footer = ffi::filled(FOOTER_LEN, |out, cap, len| unsafe {
        ffi::sst_footer_write(handles, out, cap, len)
    });
    footer.map_err(Error::of)
}

/// A table file over bytes that are borrowed, such as a mapped file: a [`Run`], whose calls it has, and a footer.
#[derive(Clone, Copy)]
pub struct Table<'a>(Run<'a>);

impl<'a> Table<'a> {
    // The run before a footer. No check accepted it.
    fn run(file: &'a [u8], hash: Hash) -> Result<Run<'a>> {
        let mut handles = ffi::RunHandles::default();
        demand(unsafe { ffi::sst_footer_read(file.as_ptr(), file.len(), &mut handles) })?;
        Ok(Run::over(&file[..file.len() - FOOTER_LEN], handles, hash))
    }

    /// Checks all bytes of a file, as [`Run::verify`] does.
    pub fn check(file: &'a [u8]) -> Result<Table<'a>> {
        Table::check_by(file, Hash::Xxh3)
    }

    /// Checks all bytes of a file that was written by this hash function, as [`Run::check_by`] does.
    pub fn check_by(file: &'a [u8], hash: Hash) -> Result<Table<'a>> {
        Ok(Table(Table::run(file, hash)?.checked()?))
    }

    /// Takes a file and tests nothing but its length.
    ///
    /// # Safety
    ///
    /// [`Table::check`] accepted the file, or [`write_table`] or the library wrote it.
    pub unsafe fn trusted(file: &'a [u8]) -> Result<Table<'a>> {
        Table::trusted_by(file, Hash::Xxh3)
    }

    /// Takes a file by this hash function, and tests nothing but its length.
    ///
    /// # Safety
    ///
    /// [`Table::check_by`] accepted the file with this hash function, or [`write_table`] or the library wrote it
    /// with this one.
    pub unsafe fn trusted_by(file: &'a [u8], hash: Hash) -> Result<Table<'a>> {
        Table::run(file, hash).map(Table)
    }

    /// Checks all bytes of a file again that [`Table::check`] refused, and returns where the check ended. There
    /// is no such frame where the file is a table or too short for one, or an allocation fails.
    pub fn refused_at(file: &[u8]) -> Option<CheckEnd> {
        Table::refused_at_by(file, Hash::Xxh3)
    }

    /// Returns where the check of a file by this hash function ended, as [`Table::refused_at`] does.
    pub fn refused_at_by(file: &[u8], hash: Hash) -> Option<CheckEnd> {
        Table::run(file, hash).ok()?.refusal()
    }
}

impl<'a> Deref for Table<'a> {
    type Target = Run<'a>;

    fn deref(&self) -> &Run<'a> {
        &self.0
    }
}

impl<'a> AsRef<Run<'a>> for Table<'a> {
    fn as_ref(&self) -> &Run<'a> {
        self
    }
}
