//! Blocks, filters and tables of a log-structured storage engine, in the format and under the names of
//! the crate lsm-tree 3.1.10, over borrowed bytes.
//!
//! What the calls behind this crate do is proved by machine (see the repository); this crate is tested.
//!
//! ```
//! use sst::{Config, Entry, Table, ValueType, write_table};
//!
//! # fn main() -> sst::Result<()> {
//! let entries = [
//!     Entry::new(b"ann", 2, ValueType::Value, b"x"),
//!     Entry::new(b"ann", 1, ValueType::Value, b"old"),
//!     Entry::new(b"bob", 7, ValueType::Tombstone, b""),
//! ];
//! let file = write_table(&entries, &Config::default())?;
//! let table = Table::check(&file)?;
//! assert_eq!(table.get(b"ann", u64::MAX).unwrap().value, b"x");
//! assert_eq!(table.get(b"ann", 2).unwrap().value, b"old");
//! assert_eq!(&*table.iter().next_back().unwrap().key(), b"bob");
//! # Ok(())
//! # }
//! ```
//!
//! [`Merge`] reads several tables in one order, and [`compact`] makes one of them. A table without its footer is a
//! [`Run`].
//!
//! Bytes by the other hash function, [`Hash::Poly31`], are for the calls that end in `_by`, and for a
//! [`Config`] with this `hash`.
mod block;
mod ffi;
mod merge;
mod run;
mod table;

pub use block::{Block, BlockHandle, BlockType, DataBlock, IndexBlock, Iter, KeyedBlockHandle};
pub use block::{StandardBloomFilterReader, build_filter, build_filter_by};
pub use merge::Merge;
pub use run::{CheckEnd, OpenRun, Range, Run, RunHandles, Summary};
pub use table::{Config, Table, Writer, compact, write_table};

use std::borrow::Cow;
use std::cmp::Ordering;
use std::fmt;

/// Numbers the versions of keys: a higher one is newer.
pub type SeqNo = u64;

/// A result of this crate.
pub type Result<T> = std::result::Result<T, Error>;

/// What a call refused: the statuses of sst.h, where each is explained.
#[derive(Clone, Copy, Debug, PartialEq, Eq)]
#[allow(missing_docs)]
#[repr(u32)]
pub enum Error {
    InvalidHeader = 2,
    InvalidTag = 3,
    ChecksumMismatch = 4,
    LengthMismatch = 5,
    TooLong = 6,
    Truncated = 7,
    BadTrailer = 8,
    BadEntry = 9,
    OutOfOrder = 10,
    BadIndex = 11,
    BadHashIndex = 12,
    BadFilter = 13,
    BadHandle = 14,
    Memory = 15,
    BadArgument = 17,
}

impl Error {
    const ALL: [Error; 15] = [
        Error::InvalidHeader, Error::InvalidTag, Error::ChecksumMismatch, Error::LengthMismatch,
        Error::TooLong, Error::Truncated, Error::BadTrailer, Error::BadEntry, Error::OutOfOrder,
        Error::BadIndex, Error::BadHashIndex, Error::BadFilter, Error::BadHandle, Error::Memory,
        Error::BadArgument,
    ];

    fn of(status: u32) -> Error {
        let found = Error::ALL.into_iter().find(|error| *error as u32 == status);
        found.expect("a call returns a status of sst.h")
    }
}

impl fmt::Display for Error {
    fn fmt(&self, f: &mut fmt::Formatter<'_>) -> fmt::Result {
        fmt::Debug::fmt(self, f)
    }
}

impl std::error::Error for Error {}

/// The library's error as one of a writer: its source is this error.
impl From<Error> for std::io::Error {
    fn from(error: Error) -> std::io::Error {
        let kind = match error {
            Error::Memory => std::io::ErrorKind::OutOfMemory,
            Error::BadArgument | Error::OutOfOrder => std::io::ErrorKind::InvalidInput,
            _ => std::io::ErrorKind::InvalidData,
        };
        std::io::Error::new(kind, error)
    }
}

fn demand(status: u32) -> Result<()> {
    if status == 0 { Ok(()) } else { Err(Error::of(status)) }
}

/// The hash function of hash index, filter and checksums. No byte says which one it was.
#[derive(Clone, Copy, Debug, Default, PartialEq, Eq)]
pub enum Hash {
    /// XXH3 with seed 0, as lsm-tree has it: what every call takes that is not passed another one.
    #[default]
    Xxh3 = 0,
    /// From 0, times 31 plus each byte in turn, modulo 2^64 and 2^128.
    Poly31 = 1,
}

impl Hash {
    fn number(self) -> u32 {
        self as u32
    }
}

/// The type of an entry.
#[derive(Clone, Copy, Debug, PartialEq, Eq, Hash)]
pub enum ValueType {
    /// A value.
    Value = 0,
    /// The key is deleted.
    Tombstone = 1,
    /// The key is deleted, if it was written once.
    WeakTombstone = 2,
    /// A value that is elsewhere.
    Indirection = 4,
}

impl ValueType {
    fn of(byte: u8) -> ValueType {
        match byte {
            0 => ValueType::Value,
            1 => ValueType::Tombstone,
            2 => ValueType::WeakTombstone,
            _ => ValueType::Indirection,
        }
    }
}

/// A version of a key, whose bytes are borrowed. Its key may lie in two parts, neither of which is copied.
#[derive(Clone, Copy)]
pub struct Entry<'a> {
    prefix: &'a [u8],
    rest: &'a [u8],
    /// The value; of a tombstone it is empty.
    pub value: &'a [u8],
    /// The sequence number.
    pub seqno: SeqNo,
    /// The type.
    pub value_type: ValueType,
}

impl<'a> Entry<'a> {
    /// Makes an entry of its parts.
    pub fn new(key: &'a [u8], seqno: SeqNo, value_type: ValueType, value: &'a [u8]) -> Entry<'a> {
        Entry { prefix: b"", rest: key, value, seqno, value_type }
    }

    /// Returns the key, copied only where it lies in two parts.
    pub fn key(&self) -> Cow<'a, [u8]> {
        match self.prefix {
            b"" => Cow::Borrowed(self.rest),
            prefix => Cow::Owned([prefix, self.rest].concat()),
        }
    }

    /// Compares the key with another, bytewise, and copies nothing.
    pub fn cmp_key(&self, key: &[u8]) -> Ordering {
        self.prefix.iter().chain(self.rest).cmp(key)
    }

    /// Whether the key is deleted by this version.
    pub fn is_tombstone(&self) -> bool {
        matches!(self.value_type, ValueType::Tombstone | ValueType::WeakTombstone)
    }

    fn at(bytes: &'a [u8], at: &ffi::Place) -> Entry<'a> {
        Entry {
            prefix: &bytes[at.prefix_offset..][..at.prefix_len],
            rest: &bytes[at.key_offset..][..at.key_len],
            value: &bytes[at.value_offset..][..at.value_len],
            seqno: at.seqno,
            value_type: ValueType::of(at.value_type),
        }
    }
}

impl PartialEq for Entry<'_> {
    fn eq(&self, other: &Entry<'_>) -> bool {
        self.key() == other.key()
            && (self.seqno, self.value_type, self.value) == (other.seqno, other.value_type, other.value)
    }
}

impl fmt::Debug for Entry<'_> {
    fn fmt(&self, f: &mut fmt::Formatter<'_>) -> fmt::Result {
        let key = self.key();
        write!(f, "{}@{} {:?} {}", key.escape_ascii(), self.seqno, self.value_type, self.value.escape_ascii())
    }
}

/// The entries as the calls take them, and the keys that had to be joined, which these point into.
fn given<'a>(entries: &[Entry<'a>]) -> (Vec<ffi::Entry>, Vec<Cow<'a, [u8]>>) {
    let keys: Vec<_> = entries.iter().map(Entry::key).collect();
    let rows = entries.iter().zip(&keys).map(|(entry, key)| ffi::Entry {
        key: key.as_ptr(),
        key_len: key.len(),
        value: entry.value.as_ptr(),
        value_len: entry.value.len(),
        seqno: entry.seqno,
        value_type: entry.value_type as u8,
    });
    (rows.collect(), keys)
}
