"""Table files of the block layer, read, checked and written from Python, by ctypes over libsst.so.

    import sst
    with sst.Table.open("users.sst") as table:      # checks the whole file
        print(table.get(b"ann"))                    # the newest version, or None
        for entry in table.scan(b"a", b"b"):        # the entries of the keys from a up to b, in order
            print(entry.key, entry.seqno, entry.value)

A table is by a hash function, by which it is checked and read: the Hash that a call is passed, XXH3 where it is
passed none.

The library is the file that the variable SST_LIBRARY names, or libsst.so beside this file, or what the
system finds as `sst` (tools/c-library PREFIX puts both into PREFIX/lib). What the calls behind this module do is proved; this
module is tested. A table may be read from any number of threads.
"""
import ctypes
import ctypes.util
import enum
import mmap
import os
import typing

MAX_SEQNO = 2**64 - 1
VERSION = 4


class Hash(enum.IntEnum):
    """The hash function of hash indexes, filter and checksums: XXH3 as lsm-tree has it, or the polynomial one."""
    XXH3 = 0
    POLY31 = 1


class ValueType(enum.IntEnum):
    """The type of an entry. Tombstones have no value."""
    VALUE = 0
    TOMBSTONE = 1
    WEAK_TOMBSTONE = 2
    INDIRECTION = 4


class Entry(typing.NamedTuple):
    """A version of a key."""
    key: bytes
    seqno: int
    value: bytes = b""
    type: ValueType = ValueType.VALUE


class Summary(typing.NamedTuple):
    """What a check of a table counts."""
    blocks: int
    entries: int
    least_seqno: int
    greatest_seqno: int


class CheckEnd(typing.NamedTuple):
    """Where a check of a table ended: the frame that it read last. The part is 0 for a block, 1 for the index,
    2 for the filter."""
    part: int
    block: int
    offset: int
    size: int


class Error(Exception):
    """A refusal of the library: the status that a call returned, and its name in sst.h; and where it is that of
    a check of a table, where that ended."""
    NAMES = ("OK", "IO", "INVALID_HEADER", "INVALID_TAG", "CHECKSUM_MISMATCH", "LENGTH_MISMATCH", "TOO_LONG",
             "TRUNCATED", "BAD_TRAILER", "BAD_ENTRY", "OUT_OF_ORDER", "BAD_INDEX", "BAD_HASH_INDEX", "BAD_FILTER",
             "BAD_HANDLE", "MEMORY", "NOT_FOUND", "BAD_ARGUMENT", "NO_ROOM")

    def __init__(self, status, end=None):
        super().__init__(f"SST_{self.NAMES[status]}")
        self.status, self.end = status, end


_OUT_OF_ORDER, _MEMORY, _NOT_FOUND, _BAD_ARGUMENT, _NO_ROOM = 10, 15, 16, 17, 18
_FOOTER = 24


class _Entry(ctypes.Structure):
    _fields_ = [("key", ctypes.c_char_p), ("key_len", ctypes.c_size_t), ("value", ctypes.c_char_p),
                ("value_len", ctypes.c_size_t), ("seqno", ctypes.c_uint64), ("value_type", ctypes.c_uint8)]


class _Place(ctypes.Structure):
    _fields_ = [("seqno", ctypes.c_uint64)] + [
        (f"{part}_{what}", ctypes.c_size_t) for part in ("prefix", "key", "value") for what in ("offset", "len")
    ] + [("value_type", ctypes.c_uint8)]


class _Config(ctypes.Structure):
    _fields_ = [("num", ctypes.c_uint32), ("den", ctypes.c_uint32), ("bits_per_key", ctypes.c_uint32),
                ("restart_interval", ctypes.c_uint8), ("index_interval", ctypes.c_uint8), ("hash", ctypes.c_uint16)]


class _Handles(ctypes.Structure):
    _fields_ = [("index_offset", ctypes.c_uint64), ("filter_offset", ctypes.c_uint64),
                ("index_size", ctypes.c_uint32), ("filter_size", ctypes.c_uint32)]


class _OpenRun(ctypes.Structure):
    _fields_ = [("handles", _Handles), ("blocks", ctypes.c_size_t), ("fronts", ctypes.c_size_t),
                ("prefix_offset", ctypes.c_size_t), ("prefix_len", ctypes.c_size_t), ("hash", ctypes.c_uint32)]


class _Run(ctypes.Structure):
    _fields_ = [("bytes", ctypes.c_void_p), ("len", ctypes.c_size_t), ("handles", _Handles)]


class _Merged(ctypes.Structure):
    _fields_ = [("run", ctypes.c_size_t), ("place", _Place)]


class _KeyedHandle(ctypes.Structure):
    _fields_ = [("end_key", ctypes.c_char_p), ("end_key_len", ctypes.c_size_t), ("seqno", ctypes.c_uint64),
                ("offset", ctypes.c_uint64), ("size", ctypes.c_uint32)]


class _Window(ctypes.Structure):
    _fields_ = [(f"{end}_{what}", ctypes.c_size_t) for end in ("first", "end") for what in ("block", "index")]


class _Summary(ctypes.Structure):
    _fields_ = [("blocks", ctypes.c_size_t), ("entries", ctypes.c_uint64), ("least_seqno", ctypes.c_uint64),
                ("greatest_seqno", ctypes.c_uint64)]


class _CheckEnd(ctypes.Structure):
    _fields_ = [("part", ctypes.c_uint8), ("block", ctypes.c_size_t), ("offset", ctypes.c_uint64),
                ("size", ctypes.c_uint32)]


def _load():
    beside = os.path.join(os.path.dirname(os.path.abspath(__file__)), "libsst.so")
    name = os.environ.get("SST_LIBRARY") or (
        beside if os.path.exists(beside) else ctypes.util.find_library("sst"))
    if not name:
        raise ImportError("libsst.so is not found: set SST_LIBRARY to its path")
    lib = ctypes.CDLL(name)
    size, count, address = ctypes.c_size_t, ctypes.POINTER(ctypes.c_size_t), ctypes.c_void_p
    handles, place = ctypes.POINTER(_Handles), ctypes.POINTER(_Place)
    for call, result, words in (
            ("sst_version", ctypes.c_uint32, []),
            ("sst_footer_read", ctypes.c_uint32, [address, size, handles]),
            ("sst_footer_write", ctypes.c_uint32, [handles, address, size, count]),
            ("sst_run_check_at", ctypes.c_uint32,
             [address, size, handles, ctypes.c_uint32, ctypes.POINTER(_Summary), ctypes.POINTER(_CheckEnd)]),
            ("sst_run_open", ctypes.c_uint32,
             [address, size, handles, ctypes.c_uint32, address, size, ctypes.POINTER(_OpenRun)]),
            ("sst_run_find", ctypes.c_uint32, [address, size, ctypes.POINTER(_OpenRun), address, size, ctypes.c_char_p,
                                               size, ctypes.c_uint64, place]),
            ("sst_run_range", None, [address, size, handles, ctypes.c_uint8, ctypes.c_char_p, size, ctypes.c_uint8,
                                     ctypes.c_char_p, size, ctypes.POINTER(_Window)]),
            ("sst_run_scan", ctypes.c_uint32, [address, size, handles, ctypes.POINTER(_Window), ctypes.c_uint8,
                                               ctypes.c_uint64, ctypes.c_uint8, place, size, count]),
            ("sst_run_write", ctypes.c_uint32,
             [ctypes.POINTER(_Entry), size, count, size, ctypes.POINTER(_Config), address, size, count, handles]),
            ("sst_run_block_write", ctypes.c_uint32,
             [ctypes.POINTER(_Entry), size, ctypes.POINTER(_Config), address, size, count, address, size]),
            ("sst_run_end_write", ctypes.c_uint32,
             [ctypes.POINTER(_KeyedHandle), size, address, size, ctypes.POINTER(_Config), address, size, count,
              handles]),
            ("sst_merge_scan", ctypes.c_uint32,
             [ctypes.POINTER(_Run), size, ctypes.POINTER(_Window), size, ctypes.c_uint8, ctypes.c_uint64, address, size,
              ctypes.POINTER(_Merged), size, count]),
            ("sst_compact", ctypes.c_uint32,
             [ctypes.POINTER(_Run), size, ctypes.c_uint8, ctypes.c_char_p, size, ctypes.c_uint8, ctypes.c_char_p, size,
              address, size, ctypes.c_uint8, size, ctypes.POINTER(_Config), address, size, count, handles])):
        function = getattr(lib, call)
        function.restype, function.argtypes = result, words
    if lib.sst_version() != VERSION:
        raise ImportError(f"{name} has calls of version {lib.sst_version()}, not {VERSION}")
    return lib


_LIB = _load()


def _demand(status):
    if status:
        raise Error(status)


class Table:
    """A table file in memory. To make one checks all its bytes, so reads need no checks. It keeps 8 bytes for each
    block, by which `get` goes to a block."""

    def __init__(self, data, hash=Hash.XXH3):
        """Checks the bytes of a table file by a hash function. Raises Error with what the check met first, and where
        it ended."""
        self._data, self._hash = data, Hash(hash)
        self._held = None if isinstance(data, bytes) else (ctypes.c_char * len(data)).from_buffer(data)
        self._at = (ctypes.cast(ctypes.c_char_p(data), ctypes.c_void_p).value if self._held is None
                    else ctypes.addressof(self._held))
        self._handles = _Handles()
        _demand(_LIB.sst_footer_read(self._at, len(data), ctypes.byref(self._handles)))
        self._run = (self._at, len(data) - _FOOTER, ctypes.byref(self._handles))
        found, end = _Summary(), _CheckEnd()
        if status := _LIB.sst_run_check_at(*self._run, self._hash, ctypes.byref(found), ctypes.byref(end)):
            raise Error(status, None if status == _MEMORY else CheckEnd(end.part, end.block, end.offset, end.size))
        self.summary = Summary(found.blocks, found.entries, found.least_seqno, found.greatest_seqno)
        self._open, self._numbers = _OpenRun(), (ctypes.c_uint64 * found.blocks)()
        _demand(_LIB.sst_run_open(*self._run, self._hash, self._numbers, found.blocks, ctypes.byref(self._open)))

    @classmethod
    def open(cls, path, hash=Hash.XXH3):
        """Maps a table file into memory and checks it by a hash function. Raises OSError or Error."""
        with open(path, "rb") as file:
            if os.fstat(file.fileno()).st_size == 0:
                return cls(b"", hash)
            return cls(mmap.mmap(file.fileno(), 0, access=mmap.ACCESS_COPY), hash)

    def close(self):
        """Gives a mapped file back. The table must not be used afterwards."""
        self._run = self._at = self._held = None
        if isinstance(self._data, mmap.mmap):
            self._data.close()

    def __enter__(self):
        return self

    def __exit__(self, *_):
        self.close()

    def __len__(self):
        return self.summary.entries

    def _part(self, offset, length):
        return bytes(self._data[offset:offset + length])

    def _entry(self, at):
        key = self._part(at.prefix_offset, at.prefix_len) + self._part(at.key_offset, at.key_len)
        return Entry(key, at.seqno, self._part(at.value_offset, at.value_len), ValueType(at.value_type))

    def get(self, key, below=MAX_SEQNO):
        """The first entry of a key strictly below a sequence number, a tombstone too, or None."""
        at = _Place()
        status = _LIB.sst_run_find(*self._run[:2], ctypes.byref(self._open), self._numbers, len(self._numbers), key,
                                   len(key), below, ctypes.byref(at))
        if status == _NOT_FOUND:
            return None
        _demand(status)
        return self._entry(at)

    def block(self, index):
        """The entries of the block at an index from 0, in order."""
        if not 0 <= index < self.summary.blocks:
            raise IndexError(index)
        window = self._window(b"", None)
        window.first_block = index
        if index < window.end_block:
            window.end_block, window.end_index = index + 1, 0
        return list(self._left(window))

    def _window(self, start, end):
        """The window of the entries of a range of keys."""
        window, to = _Window(), b"" if end is None else end
        _LIB.sst_run_range(*self._run, True, start, len(start), end is not None, to, len(to), ctypes.byref(window))
        return window

    def _left(self, window, reverse=False, below=None, batch=64):
        """The entries that a window has left, from one end, read in batches."""
        count, places = ctypes.c_size_t(), (_Place * batch)()
        while True:
            _demand(_LIB.sst_run_scan(*self._run, ctypes.byref(window), below is not None, below or 0, reverse,
                                      places, batch, ctypes.byref(count)))
            if count.value == 0:
                return
            for at in places[:count.value]:
                yield self._entry(at)

    def scan(self, start=b"", end=None, reverse=False, below=None, batch=64):
        """The entries of the keys from `start` on, up to and without `end` (None: to the last), with numbers
        strictly below `below` (None: all): by key rising and then by sequence number falling, all versions, tombstones
        too; or backwards. They are read in batches of so many, at least 1."""
        if batch < 1:
            raise ValueError("a batch has at least one entry")
        return self._left(self._window(start, end), reverse, below, batch)

    def __iter__(self):
        return self.scan()

    def __reversed__(self):
        return self.scan(reverse=True)


def _runs(tables):
    return (_Run * len(tables))(*[_Run(t._run[0], t._run[1], t._handles) for t in tables])


def merge(tables, start=b"", end=None, below=None, snapshots=(), batch=64):
    """The entries of several tables in one order: by key, then by sequence number falling, and of equal ones those of
    the earlier table first, so the newest table stands first. The tables may be by either hash function. The rest is
    as for `Table.scan`; but each batch opens each table anew, so many tables want larger ones: some 8 for each.

    What `compact` leaves out for these snapshots above the bottom is left out. A snapshot sees the entries strictly
    below it: one that some of them see goes where each of these sees one of its key that comes before it, also if
    that one is not below `below`.

        with sst.Table.open("new.sst") as newer, sst.Table.open("old.sst") as older:
            for entry in sst.merge([newer, older]):
                print(entry.key, entry.seqno, entry.value)
    """
    if batch < 1:
        raise ValueError("a batch has at least one entry")
    tables, snapshots = list(tables), list(snapshots)
    windows = (_Window * len(tables))(*[table._window(start, end) for table in tables])
    return _merged(tables, windows, below, (ctypes.c_uint64 * len(snapshots))(*snapshots), batch)


def _merged(tables, windows, below, snapshots, batch):
    """The entries that windows of tables have left, read in batches."""
    count, merged = ctypes.c_size_t(), (_Merged * batch)()
    while True:
        _demand(_LIB.sst_merge_scan(_runs(tables), len(tables), windows, len(windows), below is not None, below or 0,
                                    snapshots, len(snapshots), merged, batch, ctypes.byref(count)))
        if count.value == 0:
            return
        for at in merged[:count.value]:
            yield tables[at.run]._entry(at.place)


def _given(entries):
    return (_Entry * len(entries))(*[
        _Entry(e.key, len(e.key), e.value, len(e.value), e.seqno, e.type) for e in entries])


def _cuts(entries, block_size):
    """The indexes of the entries that begin a block but the first: a block ends with the entry with which
    its keys and values have this many bytes."""
    cuts, held = [], 0
    for index, entry in enumerate(entries):
        if held >= block_size:
            cuts.append(index)
            held = 0
        held += len(entry.key) + len(entry.value)
    return cuts


def write(entries, block_size=4096, restart_interval=16, index_interval=1, bits_per_key=10, hash_ratio=(0, 1),
          hash=Hash.XXH3):
    """The bytes of the table file of entries: at least one, by key rising and then by sequence number
    falling. `bits_per_key` 0: no filter; `hash_ratio` (3, 4): three buckets of a block's hash index for
    four entries. Raises Error with BAD_ARGUMENT where the entries can't be written so."""
    entries = list(entries)
    given = _given(entries)
    cuts = _cuts(entries, block_size)
    given_cuts = (ctypes.c_size_t * len(cuts))(*cuts)
    config = _Config(*hash_ratio, bits_per_key, restart_interval, index_interval, Hash(hash))
    handles, need = _Handles(), ctypes.c_size_t()
    # What most tables need; a longer one says how much.
    out = bytearray(sum(len(e.key) + len(e.value) + 64 for e in entries) + 4096)
    while (status := _LIB.sst_run_write(
            given, len(entries), given_cuts, len(cuts), ctypes.byref(config),
            (ctypes.c_char * len(out)).from_buffer(out), len(out), ctypes.byref(need),
            ctypes.byref(handles))) == _NO_ROOM:
        out = bytearray(need.value)
    _demand(status)
    return _file(out[:need.value], handles)


def _file(run, handles):
    """The table file of a run: its bytes and the footer."""
    footer, need = ctypes.create_string_buffer(_FOOTER), ctypes.c_size_t()
    _demand(_LIB.sst_footer_write(ctypes.byref(handles), footer, _FOOTER, ctypes.byref(need)))
    return bytes(run) + footer.raw


def compact(tables, snapshots=(), bottom=False, start=b"", end=None, block_size=4096, restart_interval=16,
            index_interval=1, bits_per_key=10, hash_ratio=(0, 1), hash=Hash.XXH3):
    """The bytes of one table file of what stays of tables, or None where no entry does. The newest table stands first:
    of entries with the same key and sequence number those of the earlier table come first. Of each table only the
    entries of the keys from `start` on, up to and without `end` (None: to the last) are taken.

    The entries stay that a read below one of the snapshots, or below any number that is at least as large as all
    of them, can find; without snapshots all. At the bottom no older version of a key in the range is elsewhere:
    tombstones that are below a snapshot, and hide nothing that stays, go then. The tables may be by either hash
    function; `hash` is that of the new one. A block ends with the entry with which its entries have `block_size` bytes as
    they are encoded. The rest is as for `write`.

        with sst.Table.open("new.sst") as newer, sst.Table.open("old.sst") as older:
            data = sst.compact([newer, older], snapshots=[sst.MAX_SEQNO], bottom=True)
    """
    tables, snapshots, to = list(tables), list(snapshots), b"" if end is None else end
    runs = _runs(tables)
    numbers = (ctypes.c_uint64 * len(snapshots))(*snapshots)
    config = _Config(*hash_ratio, bits_per_key, restart_interval, index_interval, Hash(hash))
    handles, need = _Handles(), ctypes.c_size_t()
    out = bytearray(sum(run.len for run in runs) + 4096)
    while (status := _LIB.sst_compact(
            runs, len(runs), True, start, len(start), end is not None, to, len(to), numbers, len(snapshots), bottom,
            block_size, ctypes.byref(config), (ctypes.c_char * len(out)).from_buffer(out), len(out),
            ctypes.byref(need), ctypes.byref(handles))) == _NO_ROOM:
        out = bytearray(need.value)
    if status == _NOT_FOUND:
        return None
    _demand(status)
    return _file(out[:need.value], handles)


class Writer:
    """Writes a table file entry by entry into an open binary file: the bytes that `write` makes of the same
    entries, a frame at a time as they are finished. Kept are the entries of one block, and of the blocks before
    it a handle for each and, where there is a filter, a hash of 8 bytes for each entry.

        with open("users.sst", "wb") as file:
            writer = sst.Writer(file)
            for key in sorted(users):
                writer.add(sst.Entry(key, 1, users[key]))
            writer.finish()
    """

    def __init__(self, file, block_size=4096, restart_interval=16, index_interval=1, bits_per_key=10,
                 hash_ratio=(0, 1), hash=Hash.XXH3):
        self._file, self._block_size = file, block_size
        self._config = _Config(*hash_ratio, bits_per_key, restart_interval, index_interval, Hash(hash))
        self._entries, self._held, self._last = [], 0, None
        self._ends, self._hashes, self._length = [], bytearray(), 0
        self._out = bytearray(block_size + 4096)

    def add(self, entry):
        """Adds an entry. Raises Error with OUT_OF_ORDER where it sorts before the one added last, and with
        BAD_ARGUMENT where it is no entry; the table goes on without it. After another error the table can't be
        finished."""
        if not 1 <= len(entry.key) <= 65535 or len(entry.value) >= 2**32 or not 0 <= entry.seqno <= MAX_SEQNO:
            raise Error(_BAD_ARGUMENT)
        order = (entry.key, -entry.seqno)
        if self._last is not None and order < self._last:
            raise Error(_OUT_OF_ORDER)
        if self._entries and self._held >= self._block_size:
            self._close_block()
        self._entries.append(Entry(bytes(entry.key), entry.seqno, bytes(entry.value), ValueType(entry.type)))
        self._held += len(entry.key) + len(entry.value)
        self._last = order

    def finish(self):
        """Ends the table: writes the last block, the index, the filter and the footer. Raises Error with
        BAD_ARGUMENT where no entry was added."""
        self._close_block()
        handles, run = (_KeyedHandle * len(self._ends))(*self._ends), _Handles()
        hashes = (ctypes.c_char * len(self._hashes)).from_buffer(self._hashes)
        self._write(lambda out, cap, length: _LIB.sst_run_end_write(
            handles, len(handles), hashes, len(self._hashes) // 8, ctypes.byref(self._config), out, cap, length,
            ctypes.byref(run)))
        self._write(lambda out, cap, length: _LIB.sst_footer_write(ctypes.byref(run), out, cap, length))

    def _write(self, call):
        """Writes what a call makes that says how much capacity it needs, and returns its length."""
        need = ctypes.c_size_t()
        while (status := call((ctypes.c_char * len(self._out)).from_buffer(self._out), len(self._out),
                              ctypes.byref(need))) == _NO_ROOM:
            self._out = bytearray(need.value)
        _demand(status)
        self._file.write(memoryview(self._out)[:need.value])
        self._length += need.value
        return need.value

    def _close_block(self):
        given, offset = _given(self._entries), self._length
        hashes = (ctypes.c_uint64 * (len(given) if self._config.bits_per_key else 0))()
        size = self._write(lambda out, cap, length: _LIB.sst_run_block_write(
            given, len(given), ctypes.byref(self._config), out, cap, length, hashes, len(hashes)))
        last = self._entries[-1]
        self._ends.append((last.key, len(last.key), last.seqno, offset, size))
        self._hashes += bytes(hashes)
        self._entries, self._held = [], 0
