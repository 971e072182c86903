/* The block layer of a log-structured storage engine, for C and C++: blocks, filters, frames and runs over
   bytes of the caller, which are borrowed for the call. Link libsst.a or libsst.so (tools/c-library PREFIX
   makes them).

   What a caller owes each call:
   - every pointer is valid for its length, aligned for its type, and never null, also with length 0;
   - what a call writes overlaps nothing else that it is given;
   - nobody writes what is borrowed while a call runs;
   - the calls that say "a data block" or "an index block" get only bytes that the check accepted, or
     that the library wrote, and the same for runs; those that take a hash function too, with the same
     hash function. What they do with other bytes is not stated.
   The rest is proved: each call ends, stays within the bytes that it is given, and does what is said
   here for all arguments. A call keeps nothing and starts nothing, so any number of threads may call at
   once. Offsets and lengths are in bytes. Keys sort bytewise; a block holds entries by key rising, then by
   sequence number falling. A read "below" a number takes versions with a number strictly below.

   Checksums, hash index and filter are by a hash function, enum sst_hash, which each call that hashes is
   given; the others, for index blocks, footers, ranges and scans, take bytes of either. No byte says which it
   was, so who reads has to know. With SST_XXH3 data blocks, index blocks, filters and frames are
   those of lsm-tree 3.1.10. */
#pragma once
#include <stddef.h>
#include <stdint.h>
#ifdef __cplusplus
extern "C" {
#endif

/* The version of the calls that this header declares, which rises where a call or a struct changes its
   meaning or is removed; and that of the library that is linked. */
#define SST_VERSION 4 /* 1 hashed by a polynomial; 2 listed runs by block indexes, and blocks whole, too, and
                         wrote runs at once only; 3 hashed by XXH3 alone: of its calls those took no `hash` that
                         take one now, and sst_run_config had no member for it */
uint32_t sst_version(void);

/* The hash function of hash index, filter and checksums. Of any other number a call that takes one returns
   SST_BAD_ARGUMENT, whatever its other arguments are, and writes nothing. */
enum sst_hash {
    SST_XXH3 = 0,  /* XXH3 with seed 0, of 64 and of 128 bits, which lsm-tree stores */
    SST_POLY31 = 1 /* from 0, times 31 plus each byte in turn, modulo 2^64 and 2^128 */
};

/* What a call returns. 1 to 15 are the library's errors E1 to E15. */
enum sst_status {
    SST_OK = 0,
    SST_IO = 1,
    SST_INVALID_HEADER = 2,
    SST_INVALID_TAG = 3,
    SST_CHECKSUM_MISMATCH = 4,
    SST_LENGTH_MISMATCH = 5,
    SST_TOO_LONG = 6,       /* 2^32 bytes or more */
    SST_TRUNCATED = 7,      /* no room for a trailer */
    SST_BAD_TRAILER = 8,    /* its numbers don't fit each other and the bytes */
    SST_BAD_ENTRY = 9,      /* not as many items in their forms as the trailer says, and nothing else */
    SST_OUT_OF_ORDER = 10,  /* an item sorts before the one before it */
    SST_BAD_INDEX = 11,     /* a pointer of the binary index is not the offset of its head */
    SST_BAD_HASH_INDEX = 12,
    SST_BAD_FILTER = 13,
    SST_BAD_HANDLE = 14,    /* a handle's block ends at 2^64 or above */
    SST_MEMORY = 15,        /* an allocation failed */
    SST_NOT_FOUND = 16,
    SST_BAD_ARGUMENT = 17,
    SST_NO_ROOM = 18        /* the buffer is too short; the length that is needed is written */
};

/* The type of an entry. A tombstone of either kind has no value. */
enum sst_value_type { SST_VALUE = 0, SST_TOMBSTONE = 1, SST_WEAK_TOMBSTONE = 2, SST_INDIRECTION = 4 };

/* The name of what a call returned. */
static inline const char *sst_error_name(uint32_t status) {
    static const char *const names[] = {
        "ok", "Io", "InvalidHeader", "InvalidTag", "ChecksumMismatch", "LengthMismatch", "TooLong",
        "Truncated", "BadTrailer", "BadEntry", "OutOfOrder", "BadIndex", "BadHashIndex", "BadFilter",
        "BadHandle", "Memory", "not found", "bad argument", "no room"};
    return status < sizeof names / sizeof *names ? names[status] : "no status";
}

/* An entry that is given. */
struct sst_entry {
    const uint8_t *key;    /* of 1 to 65535 bytes */
    size_t key_len;
    const uint8_t *value;  /* of at most 2^32 - 1 bytes; that of a tombstone is not stored */
    size_t value_len;
    uint64_t seqno;
    uint8_t value_type;
};

/* Where the parts of an entry are in a payload. Its key is the prefix and then the key's own bytes. */
struct sst_place {
    uint64_t seqno;
    size_t prefix_offset, prefix_len;
    size_t key_offset, key_len;
    size_t value_offset, value_len;
    uint8_t value_type;
};

/* A handle that is given: the key and the sequence number of a block's last entry, and where its frame
   is. */
struct sst_keyed_handle {
    const uint8_t *end_key;  /* of at most 65535 bytes */
    size_t end_key_len;
    uint64_t seqno;
    uint64_t offset;
    uint32_t size;
};

/* Where the frame of a block is. */
struct sst_handle {
    uint64_t offset;
    uint32_t size;
};

/* Encodes entries as a data block at the front of out: restart intervals of `interval` entries, and
   num / den buckets of the hash index for each entry (0 and 1: none), by a hash function.
   SST_OK: *out_len bytes of out are the block. SST_NO_ROOM: out_cap is less than *out_len, the length
   of the block. SST_BAD_ARGUMENT: exactly if the entries can't be encoded: there is none, one is not an
   entry (lengths, type), they are out of order, interval or den is 0, or hash is none of enum sst_hash.
   SST_TOO_LONG: only where the block has 2^32 bytes or more. SST_MEMORY. But for SST_OK out is left, and but
   for SST_OK and SST_NO_ROOM *out_len. Allocates: keys and values are copied into the block alone. */
uint32_t sst_data_block_encode(const struct sst_entry *entries, size_t count, uint8_t interval,
                               uint32_t num, uint32_t den, uint32_t hash, uint8_t *out, size_t out_cap,
                               size_t *out_len);

/* Checks any bytes. SST_OK: exactly if they are a data block by this hash function, of *count entries.
   SST_TOO_LONG: exactly if len is 2^32 or more. Else the first of SST_TRUNCATED to SST_BAD_HASH_INDEX that
   fails, in this order: the last one where the buckets are not those of this hash function; without buckets a
   data block is one by either. SST_MEMORY: only where buckets are stored. SST_BAD_ARGUMENT: exactly if hash is
   none of enum sst_hash. But for SST_OK *count is left. */
uint32_t sst_data_block_check(const uint8_t *payload, size_t len, uint32_t hash, size_t *count);

/* Finds the first entry of a key below a sequence number in a data block, a tombstone too. SST_OK:
   *place is where it is. SST_NOT_FOUND: there is none. SST_BAD_ARGUMENT: exactly if hash is none of enum
   sst_hash. But for SST_OK *place is left. Takes no memory. */
uint32_t sst_data_block_find(const uint8_t *payload, size_t len, uint32_t hash, const uint8_t *key,
                             size_t key_len, uint64_t below_seqno, struct sst_place *place);

/* Encodes handles as an index block at the front of out, in restart intervals of `interval` handles. The
   codes are those of sst_data_block_encode; SST_BAD_ARGUMENT: exactly if there is no handle, an end key
   is too long, the handles are out of order, a frame ends at 2^64 or above, or interval is 0. */
uint32_t sst_index_block_encode(const struct sst_keyed_handle *handles, size_t count, uint8_t interval,
                                uint8_t *out, size_t out_cap, size_t *out_len);

/* Checks any bytes. SST_OK: exactly if they are an index block, of *count handles. SST_TOO_LONG: exactly
   if len is 2^32 or more. Else the first that fails of SST_TRUNCATED, SST_BAD_TRAILER, SST_BAD_ENTRY,
   SST_BAD_HANDLE, SST_OUT_OF_ORDER, SST_BAD_INDEX. But for SST_OK *count is left. Takes no memory. */
uint32_t sst_index_block_check(const uint8_t *payload, size_t len, size_t *count);

/* Finds in an index block the one block that can hold the first entry of a key below a sequence number:
   the first whose last entry does not sort before it. SST_OK: *handle is where its frame is.
   SST_NOT_FOUND: there is none, and *handle is left. Takes no memory. */
uint32_t sst_index_block_find(const uint8_t *payload, size_t len, const uint8_t *key, size_t key_len,
                              uint64_t below_seqno, struct sst_handle *handle);

/* The index of the handle that sst_index_block_find finds, or the number of handles where it finds none. Takes
   no memory. */
size_t sst_index_block_seek(const uint8_t *payload, size_t len, const uint8_t *key, size_t key_len,
                            uint64_t below_seqno);

/* Where the end key of a handle is in the payload of an index block, and the rest of the handle. The key is the
   prefix and then the key's own bytes. */
struct sst_handle_place {
    uint64_t seqno;
    size_t prefix_offset, prefix_len;
    size_t key_offset, key_len;
    uint64_t offset;
    uint32_t size;
};

/* Writes where the handles of an index block from an index on are, in order. SST_OK: the first *count places are
   written: all handles from there on, or as many as there is room for. The places after them are left.
   SST_BAD_ARGUMENT: exactly if from is greater than the number of handles; then nothing is written. Takes no
   memory. A call decodes the handles that it lists, and before them at most those of a restart interval. */
uint32_t sst_index_block_scan(const uint8_t *payload, size_t len, size_t from, struct sst_handle_place *places,
                              size_t cap, size_t *count);

/* A byte string that is given, such as a key of a filter. */
struct sst_bytes {
    const uint8_t *data;
    size_t len;
};

/* Builds a Bloom filter of keys at so many bits for each at the front of out, by a hash function. SST_OK:
   *out_len bytes of out are its payload. SST_NO_ROOM: out_cap is less than *out_len. SST_BAD_ARGUMENT: exactly
   if there is no key, no bit, or more than 34359737920 bits in all, or hash is none of enum sst_hash.
   SST_MEMORY: the call takes 8 bytes for each key, and the filter is made, and then copied to out. But for SST_OK
   out is left, and but for SST_OK and SST_NO_ROOM *out_len. */
uint32_t sst_filter_build(const struct sst_bytes *keys, size_t count, uint32_t bits_per_key, uint32_t hash,
                          uint8_t *out, size_t out_cap, size_t *out_len);

/* Builds of hashes of keys, as sst_run_block_write writes them, the filter that sst_filter_build builds of keys with
   these hashes, with the same codes. SST_BAD_ARGUMENT: exactly if there is no hash, no bit, or more than 34359737920 bits in
   all. SST_MEMORY: the filter is made, and then copied to out. */
uint32_t sst_filter_build_hashes(const uint64_t *hashes, size_t count, uint32_t bits_per_key, uint8_t *out,
                                 size_t out_cap, size_t *out_len);

/* Asks the filter in any bytes about a key. SST_OK: the key may have been inserted; for each key that
   was, by this hash function, that is the answer. SST_NOT_FOUND: it was not. Else the bytes are no filter, by
   the first that fails of SST_TRUNCATED, SST_INVALID_HEADER, SST_INVALID_TAG, SST_BAD_FILTER. SST_BAD_ARGUMENT:
   exactly if hash is none of enum sst_hash. A filter by another hash function is not refused, and hides
   keys. Takes no memory. */
uint32_t sst_filter_may_contain(const uint8_t *payload, size_t len, uint32_t hash, const uint8_t *key,
                                size_t key_len);

/* Asks the filter in any bytes about the hash of a key, with the codes of sst_filter_may_contain but
   SST_BAD_ARGUMENT. Takes no memory. */
uint32_t sst_filter_may_contain_hash(const uint8_t *payload, size_t len, uint64_t key_hash);

/* Writes the frame of a payload at the front of out: 33 bytes of type, lengths and checksums, and the
   payload. block_type: 0 data, 1 index, 2 filter, 3 anything else. SST_OK: *out_len bytes of out are the
   frame. SST_NO_ROOM: out_cap is less than *out_len. SST_BAD_ARGUMENT: exactly if block_type is none of
   these, or hash none of enum sst_hash. SST_TOO_LONG: only where len is 2^32 or more. SST_MEMORY. But for
   SST_OK out is left, and but for SST_OK and SST_NO_ROOM *out_len. */
uint32_t sst_frame_write(const uint8_t *payload, size_t len, uint8_t block_type, uint32_t hash, uint8_t *out,
                         size_t out_cap, size_t *out_len);

/* Checks any bytes as a whole frame. SST_OK: they are one, of a block of this type, whose payload is the
   *payload_len bytes after the first 33. Else the first that fails of SST_TRUNCATED, SST_INVALID_HEADER,
   SST_INVALID_TAG, SST_CHECKSUM_MISMATCH (header), SST_LENGTH_MISMATCH, SST_CHECKSUM_MISMATCH (payload),
   the checksums by this hash function; or SST_MEMORY. SST_BAD_ARGUMENT: exactly if hash is none of enum
   sst_hash. But for SST_OK *block_type and *payload_len are left. Allocates: the frame is copied. */
uint32_t sst_frame_check(const uint8_t *bytes, size_t len, uint32_t hash, uint8_t *block_type,
                         size_t *payload_len);

/* How a run is written: num / den buckets of each block's hash index for an entry (0 and 1: none), bits of
   the filter for each entry (0: no filter), the numbers of entries and of handles in a restart interval, and
   the hash function, of enum sst_hash. 16 bytes, at the offsets 0, 4, 8, 12, 13 and 14, without padding; where
   an initializer leaves the last member out, it is SST_XXH3. */
struct sst_run_config {
    uint32_t num, den;
    uint32_t bits_per_key;
    uint8_t restart_interval;
    uint8_t index_interval;
    uint16_t hash;
};

/* Where the frames of a run's index and of its filter are. There is no filter where its size is 0. */
struct sst_run_handles {
    uint64_t index_offset, filter_offset;
    uint32_t index_size, filter_size;
};

/* What a check of a run counts. */
struct sst_summary {
    size_t blocks;
    uint64_t entries;
    uint64_t least_seqno, greatest_seqno;
};

/* Writes entries as a run at the front of out: the frames of their blocks, of the index, and of the
   filter. cuts has the indexes of the entries that begin a block but the first: they rise, and are at
   least 1 and below count. SST_OK: *out_len bytes of out are the run, and *handles its handles.
   SST_NO_ROOM: out_cap is less than *out_len. SST_BAD_ARGUMENT: exactly if the entries can't be written
   so: those of sst_data_block_encode, cuts that don't fit, or an interval of 0. SST_TOO_LONG: only where
   a block has more than 4294967262 bytes, the filter more than 34359737920 bits, or the run 2^64 bytes
   or more. SST_MEMORY: the run is made, and then copied to out. But for SST_OK out and *handles are left,
   and but for SST_OK and SST_NO_ROOM *out_len. */
uint32_t sst_run_write(const struct sst_entry *entries, size_t count, const size_t *cuts, size_t cut_count,
                       const struct sst_run_config *config, uint8_t *out, size_t out_cap, size_t *out_len,
                       struct sst_run_handles *handles);

/* A run can be written block by block too: sst_run_block_write for each block, and then sst_run_end_write. What
   they need to know of the blocks is in arrays of the caller, which may be as long as the table has blocks and
   keys: a handle for each block, and, if bits_per_key is not 0, a hash of 8 bytes for each entry.

   Where each block was written so by one configuration, where none begins with an entry that sorts before the
   last one of the block before (which is the caller's to see to), and where the handles and hashes are those of
   the blocks, in their order, the frames of the blocks, and then what sst_run_end_write writes, are the run
   that sst_run_write makes of these entries and cuts. */

/* Writes entries as the next block of a run at the front of out: the frame that sst_run_write writes of a block
   of these entries. Its handle has the key and the sequence number of the last entry, the offset in the run,
   which is the end of the frame before, and 0 for the first, and the size *out_len. If bits_per_key is not 0,
   writes the hash of the key of each entry too, in their order: the first `count` elements of hashes.
   SST_OK: *out_len bytes of out are the frame. SST_NO_ROOM: out_cap is less than *out_len. SST_BAD_ARGUMENT:
   exactly if the entries can't be written so: those of sst_data_block_encode, an interval of 0, or hash_cap below
   count where bits_per_key is not 0. SST_TOO_LONG: only where the block has more than 4294967262 bytes.
   SST_MEMORY: the block is made, and then copied to out. But for SST_OK out and hashes are left, and but for
   SST_OK and SST_NO_ROOM *out_len. */
uint32_t sst_run_block_write(const struct sst_entry *entries, size_t count, const struct sst_run_config *config,
                             uint8_t *out, size_t out_cap, size_t *out_len, uint64_t *hashes, size_t hash_cap);

/* Ends a run after the frames of its blocks: writes the frames of their index and of the filter at the front of
   out. handles has a handle for each block, hashes the hashes of the keys of all entries; both in the order of
   the blocks. If bits_per_key is 0, no filter is written, and no hash is examined.
   SST_OK: *out_len bytes of out are these frames, and *run_handles has where they are in the run.
   SST_NO_ROOM: out_cap is less than *out_len. SST_BAD_ARGUMENT: exactly if no run can end so: there is no handle,
   an end key is too long, the handles are out of order, their frames do not follow each other from offset 0
   without a gap, one ends at 2^64 or above, an interval or den is 0, config->hash is none of enum sst_hash, or
   there is no hash of a key where bits_per_key is not 0. SST_TOO_LONG: only where the index has more than
   4294967262 bytes, the filter more than 34359737920 bits, or the run 2^64 bytes or more. SST_MEMORY: the
   frames are made, and then copied to out. But for SST_OK out and *run_handles are left, and but for SST_OK
   and SST_NO_ROOM *out_len. */
uint32_t sst_run_end_write(const struct sst_keyed_handle *handles, size_t handle_count, const uint64_t *hashes,
                           size_t hash_count, const struct sst_run_config *config, uint8_t *out, size_t out_cap,
                           size_t *out_len, struct sst_run_handles *run_handles);

/* Checks any bytes and handles. SST_OK: exactly if they are a run by this hash function: its frames have
   their checksums and follow each other, its blocks, index and filter are encodings, all entries are in
   order, each handle of the index has the last entry of its block, and the filter hides no key. Else the first
   error of SST_INVALID_HEADER to SST_BAD_HANDLE, the blocks in their order, or SST_MEMORY; or SST_BAD_ARGUMENT:
   exactly if hash is none of enum sst_hash; and *summary is left. (A run by the other hash function is
   SST_CHECKSUM_MISMATCH, unless checksums of both happen to agree.) Each frame is copied while it is
   checked. */
uint32_t sst_run_check(const uint8_t *run, size_t len, const struct sst_run_handles *handles, uint32_t hash,
                       struct sst_summary *summary);

/* Where a check of a run ended: the frame that it read last, by its handle. */
struct sst_check_end {
    uint8_t part; /* 0 a data block, 1 the index, 2 the filter */
    size_t block; /* the index of the data block, else 0 */
    uint64_t offset;
    uint32_t size;
};

/* Checks any bytes and handles as sst_run_check does, with the same codes and the same *summary, and says where
   the check ended. The frames are read in this order: that of the filter, if there is one, that of the index,
   those of the blocks in the order of their handles, up to the one that is refused. Where the bytes are refused, *end
   is the frame that was read last: it is the one that is refused, but for a block whose handle has another
   offset than the end of the frame before, 0 for the first. That is SST_BAD_HANDLE too, and *end is then the
   frame before, or the index. *end is left with SST_OK, SST_MEMORY and SST_BAD_ARGUMENT. */
uint32_t sst_run_check_at(const uint8_t *run, size_t len, const struct sst_run_handles *handles, uint32_t hash,
                          struct sst_summary *summary, struct sst_check_end *end);

/* What is told of an entry that was read, beside its value. */
struct sst_found {
    uint64_t seqno;
    size_t value_len; /* 0 for a tombstone */
    uint8_t value_type;
};

/* Reads the first entry of a key below a sequence number in any bytes and handles, a tombstone too: the frame of the
   filter, if there is one, and, unless the filter rules the key out, that of the index and that of the one block
   that can have the entry. Of each frame range, header, lengths and checksums are compared and the type and the
   payload checked; nothing is said of other frames. SST_OK: *found is the entry, and the first found->value_len
   bytes of value are its value. SST_NO_ROOM: *found is the entry, and value_cap is less than found->value_len.
   SST_NOT_FOUND: there is none. SST_BAD_ARGUMENT: exactly if hash is none of enum sst_hash. Else the first error of
   SST_INVALID_HEADER to SST_BAD_HANDLE that is met, the frames in this order, or SST_MEMORY: each frame is copied.
   But for SST_OK value is left, and but for SST_OK and SST_NO_ROOM *found. */
uint32_t sst_run_fetch(const uint8_t *run, size_t len, const struct sst_run_handles *handles, uint32_t hash,
                       const uint8_t *key, size_t key_len, uint64_t below_seqno, struct sst_found *found,
                       uint8_t *value, size_t value_cap);

/* Finds the first entry of a key below a sequence number in a run that sst_run_check accepted or
   sst_run_write wrote with this hash function, a tombstone too. SST_OK: *place is where it is in the run.
   SST_NOT_FOUND: there is none. SST_BAD_ARGUMENT: exactly if hash is none of enum sst_hash. But for SST_OK
   *place is left. Takes no memory, and copies nothing. */
uint32_t sst_run_get(const uint8_t *run, size_t len, const struct sst_run_handles *handles, uint32_t hash,
                     const uint8_t *key, size_t key_len, uint64_t below_seqno, struct sst_place *place);

/* A run that was opened. Its members are for sst_run_find, but for `blocks`, the number of the run's blocks, and
   `fronts`, how many numbers its table has: one for each block, or none. 64 bytes, as sst_open_run_size says. */
struct sst_open_run {
    struct sst_run_handles handles;
    size_t blocks, fronts;
    size_t prefix_offset, prefix_len;
    uint32_t hash;
};

/* Opens a run, as for sst_run_get, for any number of finds. If cap is not less than its number of blocks, a table is
   written into `numbers`, of a number for each block, by which a find goes to a block and does not search the
   index: the first eight bytes of each end key behind the bytes that all of them share. None is made where
   index_interval is not 1. SST_OK: *run is the run. SST_BAD_ARGUMENT: exactly if hash is none of enum
   sst_hash; then *run and numbers are left. Numbers behind the first run->blocks are left, and all where
   there is no room. To learn how many blocks there are, open it with cap 0. Takes no memory. */
uint32_t sst_run_open(const uint8_t *bytes, size_t len, const struct sst_run_handles *handles, uint32_t hash,
                      uint64_t *numbers, size_t cap, struct sst_open_run *run);

/* Finds what sst_run_get finds, in a run that sst_run_open opened: bytes are those of the run, *run is what it
   wrote, and numbers, at least run->fronts, begin with those that it wrote; nothing of this was changed. The codes
   are those of sst_run_get. Takes no memory, and copies nothing. */
uint32_t sst_run_find(const uint8_t *bytes, size_t len, const struct sst_open_run *run, const uint64_t *numbers,
                      size_t count, const uint8_t *key, size_t key_len, uint64_t below_seqno,
                      struct sst_place *place);

/* The size of struct sst_open_run, for callers without this header. */
size_t sst_open_run_size(void);

/* What a scan of a run has left: the entries from a first place on up to, not including, an end. A place is
   the index of a block, and the index of an entry in it, or the number of its entries for the block's end.
   All entries of a run of n blocks: from 0, 0 up to n - 1 and the number of entries of that block, which
   is what sst_run_range says without bounds. Those of block b alone: from b, 0 up to b + 1, 0, or of the last
   block up to the end of the window of all. */
struct sst_window {
    size_t first_block, first_index;
    size_t end_block, end_index;
};

/* The entries of a run, as for sst_run_get but by either hash function, with keys in a range: from a key on, if
   has_from is not 0, and up to before another, if has_to is not 0. Where no key is in the range, the window is
   empty. Takes no memory. */
void sst_run_range(const uint8_t *run, size_t len, const struct sst_run_handles *handles, uint8_t has_from,
                   const uint8_t *from, size_t from_len, uint8_t has_to, const uint8_t *to, size_t to_len,
                   struct sst_window *window);

/* Writes where the next entries of a window of a run are, if has_below is not 0 of those with a sequence number
   strictly below one: the first ones that are left in order, or, where reverse is not 0, the last ones, the
   last first. The run is as for sst_run_range, and the offsets are those in the run. That end of the window is
   moved over the entries that the call went past, and the other one stays, so the calls with a window, from
   either end in any mixture, list each of its entries once.
   SST_OK: the first *count places are written: all of them, or fewer where nothing is left then; so *count
   is 0 exactly if no such entry was left, or cap is 0. The places after them are left.
   SST_BAD_ARGUMENT: exactly if the window is none of the run's: it has no such block, the block has fewer
   entries than an index, or the first place is after the end; then nothing is written. Takes no memory. A
   call decodes from a block the entries that it goes past, and before them at most those of a restart
   interval; from the back the latter again for each restart interval that it lists in part. */
uint32_t sst_run_scan(const uint8_t *run, size_t len, const struct sst_run_handles *handles,
                      struct sst_window *window, uint8_t has_below, uint64_t below_seqno, uint8_t reverse,
                      struct sst_place *places, size_t cap, size_t *count);

/* The window of the entries of a data block with keys in a range, as sst_run_range says of a run that has this one
   block: both blocks of the window are 0. The bytes are a data block by either hash function. Takes no memory. */
void sst_data_block_range(const uint8_t *payload, size_t len, uint8_t has_from, const uint8_t *from, size_t from_len,
                          uint8_t has_to, const uint8_t *to, size_t to_len, struct sst_window *window);

/* Scans a window of a data block, as sst_run_scan does of a run that has this one block; the offsets are those in
   the block. The bytes are a data block by either hash function. */
uint32_t sst_data_block_scan(const uint8_t *payload, size_t len, struct sst_window *window, uint8_t has_below,
                             uint64_t below_seqno, uint8_t reverse, struct sst_place *places, size_t cap,
                             size_t *count);

/* A run that is given, as for sst_run_range: its bytes and its handles. */
struct sst_run {
    const uint8_t *bytes;
    size_t len;
    struct sst_run_handles handles;
};

/* An entry of a merge of runs: the index of its run, and where it is in that run. */
struct sst_merged {
    size_t run;
    struct sst_place place;
};

/* Merges what windows of runs have left, one window for each run: writes where the next entries are, by key
   rising, then by sequence number falling, and of equal entries those of the earlier run first; if has_below is
   not 0 of those with a sequence number strictly below one. Each run is as for sst_run_range, by a hash function
   of its own, and the offsets are those in the entry's run. The front of each window is moved over the entries of
   its run that the call went past, and the ends stay, so the calls with the same windows and snapshots list each
   of their entries once, in order. Nothing else is kept between calls.
   An entry that some of the snapshots see is passed and not listed where each snapshot that sees it sees a newer
   one of its key too, or one with its number that comes before it: what compactions leave out. A snapshot sees
   the entries with a sequence number strictly below its own. Without snapshots nothing is left out, and
   tombstones never are for being one. A full call goes past the entries that follow and are left out, too.
   SST_OK: the first *count elements of merged are written: all of them, or fewer where nothing is left then.
   Those after them are left. SST_BAD_ARGUMENT: exactly if window_count is not run_count, or a window is none of
   its run's, as for sst_run_scan. SST_MEMORY: the call takes memory for each run, less than 2 KiB, and for each
   entry that it lists. But for SST_OK windows, merged and *count are left. A call opens each run anew: it decodes
   what it goes past and one entry more, and before them at most the entries of a restart interval. */
uint32_t sst_merge_scan(const struct sst_run *runs, size_t run_count, struct sst_window *windows,
                        size_t window_count, uint8_t has_below, uint64_t below_seqno, const uint64_t *snapshots,
                        size_t snapshot_count, struct sst_merged *merged, size_t cap, size_t *count);

/* Compacts runs into one run at the front of out. The runs are as for sst_run_range, so each is by either hash
   function, and the newest one stands first: their entries are merged, and of entries with the same key and
   sequence number those of the earlier run come first. Of each run only the entries with keys in the range are
   taken, as for sst_run_range.

   snapshots has the numbers that are read at, in any order. The entries stay that a read below one of them, or
   below any number that is at least as large as all of them, can find: of the versions of a key that are below a
   snapshot only the first below each; all that are not, so without snapshots all entries. is_bottom is not 0
   where no older version of a key in the range is elsewhere. Then a tombstone that is below a snapshot goes
   too, unless there is under it a version that a read at a snapshot finds which the tombstone is not below.

   The run is written by *config, whose hash function may be another than that of the runs. A block ends with the
   entry with which its entries reach block_size bytes: as they are encoded, without pointers, buckets, trailer and
   frame. SST_OK: *out_len bytes of out are the run, and *handles its handles. SST_NO_ROOM: out_cap is less than
   *out_len. SST_NOT_FOUND: no entry stays, exactly then. SST_BAD_ARGUMENT: exactly if no run can be written so:
   an interval or den is 0, or config->hash is none of enum sst_hash. SST_TOO_LONG: only as for sst_run_write, or
   where the entries have 2^64 - 1 bytes or more. SST_MEMORY: the run is made, and then copied to out. But for
   SST_OK out and *handles are left, and but for SST_OK and SST_NO_ROOM *out_len. */
uint32_t sst_compact(const struct sst_run *runs, size_t run_count, uint8_t has_from, const uint8_t *from,
                     size_t from_len, uint8_t has_to, const uint8_t *to, size_t to_len, const uint64_t *snapshots,
                     size_t snapshot_count, uint8_t is_bottom, size_t block_size,
                     const struct sst_run_config *config, uint8_t *out, size_t out_cap, size_t *out_len,
                     struct sst_run_handles *handles);

/* Reads where index and filter are in the run of a table file, from its last 24 bytes; the run is the bytes
   before these. SST_OK: *handles is written. SST_TRUNCATED: exactly if there are fewer than 24 bytes, and
   *handles is left. Takes no memory. */
uint32_t sst_footer_read(const uint8_t *file, size_t len, struct sst_run_handles *handles);

/* Writes the 24 bytes that end the table file of a run with these handles at the front of out. *out_len is
   24. SST_NO_ROOM: out_cap is less, and out is left. Takes no memory. */
uint32_t sst_footer_write(const struct sst_run_handles *handles, uint8_t *out, size_t out_cap,
                          size_t *out_len);

#ifdef __cplusplus
}
#endif
