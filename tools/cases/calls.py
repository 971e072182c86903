"""The calls of examples/c/sst.h: their structs, their signatures, and what they return."""

import ctypes
from ctypes import POINTER, Structure, c_char_p, c_size_t, c_uint8, c_uint16, c_uint32, c_uint64, c_void_p

from texts import Refused
from words import bad_word

# What the calls return, by the names of the errors.
ERRORS = [
    "Io",
    "InvalidHeader",
    "InvalidTag",
    "ChecksumMismatch",
    "LengthMismatch",
    "TooLong",
    "Truncated",
    "BadTrailer",
    "BadEntry",
    "OutOfOrder",
    "BadIndex",
    "BadHashIndex",
    "BadFilter",
    "BadHandle",
    "Memory",
]
OK, NOT_FOUND, BAD_ARGUMENT, NO_ROOM = 0, 16, 17, 18


class Given(Structure):
    """struct sst_entry"""

    _fields_ = [
        ("key", c_char_p),
        ("key_len", c_size_t),
        ("value", c_char_p),
        ("value_len", c_size_t),
        ("seqno", c_uint64),
        ("value_type", c_uint8),
    ]


class KeyPlace(Structure):
    """What struct sst_place and struct sst_handle_place begin with."""

    _fields_ = [
        ("seqno", c_uint64),
        ("prefix_offset", c_size_t),
        ("prefix_len", c_size_t),
        ("key_offset", c_size_t),
        ("key_len", c_size_t),
    ]


class Place(KeyPlace):
    """struct sst_place"""

    _fields_ = [
        ("value_offset", c_size_t),
        ("value_len", c_size_t),
        ("value_type", c_uint8),
    ]


class KeyedHandle(Structure):
    """struct sst_keyed_handle"""

    _fields_ = [
        ("end_key", c_char_p),
        ("end_key_len", c_size_t),
        ("seqno", c_uint64),
        ("offset", c_uint64),
        ("size", c_uint32),
    ]


class HandlePlace(KeyPlace):
    """struct sst_handle_place"""

    _fields_ = [
        ("offset", c_uint64),
        ("size", c_uint32),
    ]


class HandleAt(Structure):
    """struct sst_handle"""

    _fields_ = [("offset", c_uint64), ("size", c_uint32)]


class Bytes(Structure):
    """struct sst_bytes"""

    _fields_ = [("data", c_char_p), ("len", c_size_t)]


class Config(Structure):
    """struct sst_run_config"""

    _fields_ = [
        ("num", c_uint32),
        ("den", c_uint32),
        ("bits_per_key", c_uint32),
        ("restart_interval", c_uint8),
        ("index_interval", c_uint8),
        ("hash", c_uint16),
    ]


class Handles(Structure):
    """struct sst_run_handles"""

    _fields_ = [
        ("index_offset", c_uint64),
        ("filter_offset", c_uint64),
        ("index_size", c_uint32),
        ("filter_size", c_uint32),
    ]


class Summary(Structure):
    """struct sst_summary"""

    _fields_ = [
        ("blocks", c_size_t),
        ("entries", c_uint64),
        ("least_seqno", c_uint64),
        ("greatest_seqno", c_uint64),
    ]


class CheckEnd(Structure):
    """struct sst_check_end"""

    _fields_ = [("part", c_uint8), ("block", c_size_t), ("offset", c_uint64), ("size", c_uint32)]


class OpenRun(Structure):
    """struct sst_open_run"""

    _fields_ = [
        ("handles", Handles),
        ("blocks", c_size_t),
        ("fronts", c_size_t),
        ("prefix_offset", c_size_t),
        ("prefix_len", c_size_t),
        ("hash", c_uint32),
    ]


class Found(Structure):
    """struct sst_found"""

    _fields_ = [("seqno", c_uint64), ("value_len", c_size_t), ("value_type", c_uint8)]


class Window(Structure):
    """struct sst_window"""

    _fields_ = [
        ("first_block", c_size_t),
        ("first_index", c_size_t),
        ("end_block", c_size_t),
        ("end_index", c_size_t),
    ]


class Run(Structure):
    """struct sst_run"""

    _fields_ = [("bytes", c_void_p), ("len", c_size_t), ("handles", Handles)]


class Merged(Structure):
    """struct sst_merged"""

    _fields_ = [("run", c_size_t), ("place", Place)]


# How bytes that are read, bytes that are written, and numbers that are written are passed.
READ, WRITTEN, COUNT = [c_char_p, c_size_t], [c_void_p, c_size_t, POINTER(c_size_t)], [POINTER(c_size_t)]
RUN = [*READ, POINTER(Handles)]
KEYS = [c_uint8, *READ, c_uint8, *READ]
PLACES = [POINTER(Place), c_size_t, POINTER(c_size_t)]
ENTRIES = [POINTER(Given), c_size_t]
NUMBERS = [POINTER(c_uint64), c_size_t]
BELOW = [c_uint8, c_uint64]

# What each call takes. All but those of `RESULTS` return a code.
CALLS = {
    "sst_version": [],
    "sst_data_block_encode": [*ENTRIES, c_uint8, c_uint32, c_uint32, c_uint32, *WRITTEN],
    "sst_data_block_check": [*READ, c_uint32, *COUNT],
    "sst_data_block_find": [*READ, c_uint32, *READ, c_uint64, POINTER(Place)],
    "sst_data_block_range": [*READ, *KEYS, POINTER(Window)],
    "sst_data_block_scan": [*READ, POINTER(Window), *BELOW, c_uint8, *PLACES],
    "sst_index_block_encode": [POINTER(KeyedHandle), c_size_t, c_uint8, *WRITTEN],
    "sst_index_block_check": [*READ, *COUNT],
    "sst_index_block_find": [*READ, *READ, c_uint64, POINTER(HandleAt)],
    "sst_index_block_seek": [*READ, *READ, c_uint64],
    "sst_index_block_scan": [*READ, c_size_t, POINTER(HandlePlace), c_size_t, *COUNT],
    "sst_filter_build": [POINTER(Bytes), c_size_t, c_uint32, c_uint32, *WRITTEN],
    "sst_filter_build_hashes": [*NUMBERS, c_uint32, *WRITTEN],
    "sst_filter_may_contain": [*READ, c_uint32, *READ],
    "sst_filter_may_contain_hash": [*READ, c_uint64],
    "sst_frame_write": [*READ, c_uint8, c_uint32, *WRITTEN],
    "sst_frame_check": [*READ, c_uint32, POINTER(c_uint8), *COUNT],
    "sst_run_write": [*ENTRIES, POINTER(c_size_t), c_size_t, POINTER(Config), *WRITTEN, POINTER(Handles)],
    "sst_run_block_write": [*ENTRIES, POINTER(Config), *WRITTEN, *NUMBERS],
    "sst_run_end_write": [
        *[POINTER(KeyedHandle), c_size_t, *NUMBERS],
        *[POINTER(Config), *WRITTEN, POINTER(Handles)],
    ],
    "sst_run_check": [*RUN, c_uint32, POINTER(Summary)],
    "sst_run_check_at": [*RUN, c_uint32, POINTER(Summary), POINTER(CheckEnd)],
    "sst_run_get": [*RUN, c_uint32, *READ, c_uint64, POINTER(Place)],
    "sst_run_open": [*RUN, c_uint32, *NUMBERS, POINTER(OpenRun)],
    "sst_run_find": [*READ, POINTER(OpenRun), *NUMBERS, *READ, c_uint64, POINTER(Place)],
    "sst_run_fetch": [*RUN, c_uint32, *READ, c_uint64, POINTER(Found), c_void_p, c_size_t],
    "sst_run_range": [*RUN, *KEYS, POINTER(Window)],
    "sst_run_scan": [*RUN, POINTER(Window), *BELOW, c_uint8, *PLACES],
    "sst_merge_scan": [
        *[POINTER(Run), c_size_t, POINTER(Window), c_size_t, *BELOW],
        *[*NUMBERS, POINTER(Merged), c_size_t, *COUNT],
    ],
    "sst_compact": [
        *[POINTER(Run), c_size_t, *KEYS, *NUMBERS, c_uint8, c_size_t],
        *[POINTER(Config), *WRITTEN, POINTER(Handles)],
    ],
    "sst_footer_read": [*READ, POINTER(Handles)],
    "sst_footer_write": [POINTER(Handles), *WRITTEN],
}
RESULTS = {"sst_data_block_range": None, "sst_run_range": None, "sst_index_block_seek": c_size_t}

# The version of the calls that are declared here.
VERSION = 4


def loaded(name):
    """Returns the library of a file, with the signatures of its calls. One that it lacks fails where it
    is called."""
    library = ctypes.CDLL(name)
    for call, words in CALLS.items():
        function = getattr(library, call, None)
        if function is not None:
            function.argtypes, function.restype = words, RESULTS.get(call, c_uint32)
    if library.sst_version() != VERSION:
        raise SystemExit(f"{name} has calls of version {library.sst_version()}, not {VERSION}")
    return library


def demand(status):
    """Raises the refusal that a call returned, if it is one."""
    if status == BAD_ARGUMENT:
        raise bad_word()
    if status != OK:
        raise Refused(ERRORS[status - 1] if status <= len(ERRORS) else f"status {status}")


def is_found(status):
    """Returns whether something was found, by what a call returned."""
    if status == NOT_FOUND:
        return False
    demand(status)
    return True


def outcome(call, words, after):
    """Returns the code of a call that makes bytes, and the bytes. It takes words, then a buffer, its length
    and a place for the length that is made, and then what comes after."""
    room, length, status = 1 << 16, ctypes.c_size_t(), NO_ROOM
    while status == NO_ROOM:
        out = ctypes.create_string_buffer(room)
        status = call(*words, out, room, ctypes.byref(length), *after)
        room = length.value
    return status, out.raw[: length.value]


def made(call, words, after=()):
    """Returns the bytes that a call makes."""
    status, data = outcome(call, words, after)
    demand(status)
    return data


def made_if_found(call, words, after=()):
    """Returns the bytes that a call makes, or None where it finds nothing to make them of."""
    status, data = outcome(call, words, after)
    return data if is_found(status) else None
