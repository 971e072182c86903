/*
 * Performs an operation over calls of sst.h a number of times, and prints a line for each: `ok` with what calls
 * that take no memory find in what it made, or the name of the error and whether all places were left. For
 * runs in which an allocation fails.
 *
 * usage: refused OPERATION TIMES
 *
 * Without words it prints the operations that may allocate, a line each: the name and what is found. The
 * operation no_memory makes each call that takes no memory, some of them of a key that is not there.
 */
#include "sst.h"
#include <stdio.h>
#include <stdlib.h>
#include <string.h>

#define KEY "0123456789012345678901234567890123456789"
#define UNTOUCHED 0xaa
#define ENTRIES 3
#define RUNS 2

static const uint8_t *const key_a = (const uint8_t *)KEY "a", *const key_b = (const uint8_t *)KEY "b";
static const size_t key_len = sizeof KEY;
static struct sst_entry entries[ENTRIES];
static struct sst_keyed_handle handles[2];
static struct sst_bytes keys[2];
static const struct sst_run_config config = {1, 1, 10, 2, 2, SST_POLY31};
static const size_t cuts[1] = {2};
static const uint64_t snapshots[1] = {9}, given_hashes[2] = {1, 2};

/* What the calls are given: a data block, an index block, a filter, a frame and a run, and two runs. */
static uint8_t block[4096], index_block[4096], filter[4096], frame[4096], run[4096];
static size_t block_len, index_len, filter_len, frame_len, run_len;
static struct sst_run_handles run_handles;
static struct sst_run runs[RUNS];
static struct sst_window all[RUNS];

/* What the calls write. */
static struct {
    uint8_t out[4096];
    uint8_t block_type;
    size_t len, count;
    struct sst_run_handles handles;
    struct sst_summary summary;
    struct sst_check_end end;
    struct sst_found found;
    struct sst_merged merged[ENTRIES];
    uint64_t hashes[ENTRIES];
} to;
static struct sst_window windows[RUNS];

static void clear(void) {
    memset(&to, UNTOUCHED, sizeof to);
    memcpy(windows, all, sizeof all);
}

static int is_left(void) {
    for (size_t i = 0; i < sizeof to; i++)
        if (((const uint8_t *)&to)[i] != UNTOUCHED)
            return 0;
    return memcmp(windows, all, sizeof all) == 0;
}

/* How many of the entries are found in a block, or in a run. */
static int entries_in(const uint8_t *bytes, size_t len, const struct sst_run_handles *at_run) {
    int found = 0;
    for (int i = 0; i < ENTRIES; i++) {
        const struct sst_entry *e = &entries[i];
        struct sst_place at = {0};
        uint32_t status =
            at_run ? sst_run_get(bytes, len, at_run, SST_POLY31, e->key, e->key_len, e->seqno + 1, &at)
                   : sst_data_block_find(bytes, len, SST_XXH3, e->key, e->key_len, e->seqno + 1, &at);
        found += status == SST_OK && at.seqno == e->seqno;
    }
    return found;
}

static uint32_t data_block_encode(int *found) {
    uint32_t status = sst_data_block_encode(entries, ENTRIES, 2, 1, 1, SST_XXH3, to.out, sizeof to.out, &to.len);
    *found = status == SST_OK ? entries_in(to.out, to.len, NULL) : 0;
    return status;
}

static uint32_t data_block_check(int *found) {
    uint32_t status = sst_data_block_check(block, block_len, SST_XXH3, &to.count);
    *found = (int)to.count;
    return status;
}

static uint32_t index_block_encode(int *found) {
    struct sst_handle at = {0, 0};
    uint32_t status = sst_index_block_encode(handles, 2, 2, to.out, sizeof to.out, &to.len);
    if (status == SST_OK && sst_index_block_find(to.out, to.len, key_b, key_len, 9, &at) == SST_OK)
        *found = (int)at.offset;
    return status;
}

static int kept_keys(void) {
    int found = 0;
    for (int i = 0; i < 2; i++)
        found += sst_filter_may_contain(to.out, to.len, SST_POLY31, keys[i].data, keys[i].len) == SST_OK;
    return found;
}

static uint32_t filter_build(int *found) {
    uint32_t status = sst_filter_build(keys, 2, 10, SST_POLY31, to.out, sizeof to.out, &to.len);
    *found = status == SST_OK ? kept_keys() : 0;
    return status;
}

static uint32_t filter_build_hashes(int *found) {
    uint32_t status = sst_filter_build_hashes(given_hashes, 2, 10, to.out, sizeof to.out, &to.len);
    for (int i = 0; status == SST_OK && i < 2; i++)
        *found += sst_filter_may_contain_hash(to.out, to.len, given_hashes[i]) == SST_OK;
    return status;
}

static uint32_t frame_write(int *found) {
    uint32_t status = sst_frame_write(key_a, key_len, 0, SST_XXH3, to.out, sizeof to.out, &to.len);
    *found = status == SST_OK && to.len == 33 + key_len && memcmp(to.out + 33, key_a, key_len) == 0;
    return status;
}

static uint32_t frame_check(int *found) {
    uint32_t status = sst_frame_check(frame, frame_len, SST_XXH3, &to.block_type, &to.count);
    *found = (int)to.count;
    return status;
}

static uint32_t run_write(int *found) {
    uint32_t status =
        sst_run_write(entries, ENTRIES, cuts, 1, &config, to.out, sizeof to.out, &to.len, &to.handles);
    *found = status == SST_OK ? entries_in(to.out, to.len, &to.handles) : 0;
    return status;
}

static uint32_t run_block_write(int *found) {
    uint32_t status =
        sst_run_block_write(entries, ENTRIES, &config, to.out, sizeof to.out, &to.len, to.hashes, ENTRIES);
    *found = status == SST_OK && to.hashes[0] == to.hashes[1] && to.hashes[1] != to.hashes[2];
    return status;
}

static uint32_t run_end_write(int *found) {
    uint32_t status = sst_run_end_write(handles, 2, given_hashes, 2, &config, to.out, sizeof to.out, &to.len,
                                        &to.handles);
    *found = status == SST_OK && to.handles.index_offset == 20 &&
             to.handles.filter_offset + to.handles.filter_size == 20 + to.len;
    return status;
}

static uint32_t run_check(int *found) {
    uint32_t status = sst_run_check(run, run_len, &run_handles, SST_POLY31, &to.summary);
    *found = (int)to.summary.entries;
    return status;
}

static uint32_t run_check_at(int *found) {
    uint32_t status = sst_run_check_at(run, run_len, &run_handles, SST_POLY31, &to.summary, &to.end);
    *found = (int)to.summary.entries;
    return status;
}

static uint32_t run_fetch(int *found) {
    uint32_t status = sst_run_fetch(run, run_len, &run_handles, SST_POLY31, key_a, key_len, 3, &to.found, to.out,
                                    sizeof to.out);
    *found = status == SST_OK && to.found.seqno == 1 && to.found.value_len == 1 && to.out[0] == 'y';
    return status;
}

static uint32_t merge_scan(int *found) {
    uint32_t status = sst_merge_scan(runs, RUNS, windows, RUNS, 0, 0, snapshots, 1, to.merged, ENTRIES, &to.count);
    *found = status == SST_OK && to.merged[0].place.seqno == 3 ? (int)to.count : 0;
    return status;
}

static uint32_t compact(int *found) {
    uint32_t status = sst_compact(runs, RUNS, 0, key_a, 0, 0, key_a, 0, snapshots, 0, 1,
                                  64, &config, to.out, sizeof to.out, &to.len, &to.handles);
    *found = status == SST_OK ? entries_in(to.out, to.len, &to.handles) : 0;
    return status;
}

/* Makes each call that takes no memory. What is found is how many of the calls did what they should. */
static uint32_t no_memory(int *found) {
    const uint8_t *absent = (const uint8_t *)KEY "aa";
    struct sst_place place;
    struct sst_place places[ENTRIES];
    struct sst_handle handle;
    struct sst_handle_place handle_places[2];
    struct sst_window window = {0, 0, 0, ENTRIES};
    struct sst_open_run opened;
    uint64_t numbers[2];
    uint8_t footer[24];
    size_t count, len;
    *found += sst_data_block_find(block, block_len, SST_XXH3, absent, key_len + 1, 9, &place) == SST_NOT_FOUND;
    *found += sst_data_block_find(block, block_len, SST_XXH3, key_a, key_len, 2, &place) == SST_OK;
    *found += sst_data_block_scan(block, block_len, &window, 0, 0, 1, places, ENTRIES, &count) == SST_OK;
    sst_data_block_range(block, block_len, 1, absent, key_len + 1, 0, key_a, 0, &window);
    *found += window.first_index == 2;
    *found += sst_index_block_check(index_block, index_len, &count) == SST_OK;
    *found += sst_index_block_find(index_block, index_len, key_b, key_len, 4, &handle) == SST_NOT_FOUND;
    *found += sst_index_block_seek(index_block, index_len, absent, key_len + 1, 9) == 1;
    *found += sst_index_block_scan(index_block, index_len, 0, handle_places, 2, &count) == SST_OK;
    *found += sst_filter_may_contain(filter, filter_len, SST_POLY31, key_b, key_len) == SST_OK;
    *found += sst_filter_may_contain_hash(filter, filter_len, 3) == SST_NOT_FOUND;
    *found += sst_run_get(run, run_len, &run_handles, SST_POLY31, absent, key_len + 1, 9, &place) == SST_NOT_FOUND;
    *found += sst_run_get(run, run_len, &run_handles, SST_POLY31, key_a, key_len, 2, &place) == SST_OK;
    *found += sst_run_open(run, run_len, &run_handles, SST_POLY31, numbers, 2, &opened) == SST_OK;
    *found += sst_run_find(run, run_len, &opened, numbers, 2, absent, key_len + 1, 9, &place) == SST_NOT_FOUND;
    sst_run_range(run, run_len, &run_handles, 0, key_a, 0, 0, key_a, 0, &window);
    *found += sst_run_scan(run, run_len, &run_handles, &window, 0, 0, 0, places, ENTRIES, &count) == SST_OK;
    *found += sst_footer_write(&run_handles, footer, sizeof footer, &len) == SST_OK;
    *found += sst_footer_read(footer, sizeof footer, &to.handles) == SST_OK;
    return SST_OK;
}

/* The operations that may allocate, with what they find, and the one that does not. */
static const struct {
    const char *name;
    uint32_t (*perform)(int *found);
    int found;
} operations[] = {
    {"data_block_encode", data_block_encode, 3},
    {"data_block_check", data_block_check, 3},
    {"index_block_encode", index_block_encode, 10},
    {"filter_build", filter_build, 2},
    {"filter_build_hashes", filter_build_hashes, 2},
    {"frame_write", frame_write, 1},
    {"frame_check", frame_check, 41},
    {"run_write", run_write, 3},
    {"run_block_write", run_block_write, 1},
    {"run_end_write", run_end_write, 1},
    {"run_check", run_check, 3},
    {"run_check_at", run_check_at, 3},
    {"run_fetch", run_fetch, 1},
    {"merge_scan", merge_scan, 2},
    {"compact", compact, 3},
    {"no_memory", no_memory, 17},
};
enum { OPERATIONS = sizeof operations / sizeof *operations };

static void fill(void) {
    entries[0] = (struct sst_entry){key_a, key_len, (const uint8_t *)"x", 1, 3, SST_VALUE};
    entries[1] = (struct sst_entry){key_a, key_len, (const uint8_t *)"y", 1, 1, SST_VALUE};
    entries[2] = (struct sst_entry){key_b, key_len, (const uint8_t *)"z", 1, 4, SST_VALUE};
    handles[0] = (struct sst_keyed_handle){key_a, key_len, 1, 0, 10};
    handles[1] = (struct sst_keyed_handle){key_b, key_len, 4, 10, 10};
    keys[0] = (struct sst_bytes){key_a, key_len};
    keys[1] = (struct sst_bytes){key_b, key_len};
}

/* Makes what the calls are given. The second run has the same entries as the first. */
static int set_up(void) {
    int made = sst_data_block_encode(entries, ENTRIES, 2, 1, 1, SST_XXH3, block, sizeof block, &block_len) == SST_OK;
    made += sst_index_block_encode(handles, 2, 2, index_block, sizeof index_block, &index_len) == SST_OK;
    made += sst_filter_build(keys, 2, 10, SST_POLY31, filter, sizeof filter, &filter_len) == SST_OK;
    made += sst_frame_write(key_a, key_len, 0, SST_XXH3, frame, sizeof frame, &frame_len) == SST_OK;
    made += sst_run_write(entries, ENTRIES, cuts, 1, &config, run, sizeof run, &run_len, &run_handles) == SST_OK;
    for (int i = 0; i < RUNS; i++) {
        runs[i] = (struct sst_run){run, run_len, run_handles};
        sst_run_range(run, run_len, &run_handles, 0, key_a, 0, 0, key_a, 0, &all[i]);
    }
    return made == 5;
}

/* Performs an operation, and prints what came of it. */
static void perform(int number) {
    int found = 0;
    clear();
    uint32_t status = operations[number].perform(&found);
    if (status == SST_OK)
        printf("ok %d\n", found);
    else
        printf("%s %s\n", sst_error_name(status), is_left() ? "left" : "changed");
}

int main(int argc, char **argv) {
    static char line[4096];
    /* (a buffer of its own would be an allocation) */
    setvbuf(stdout, line, _IOFBF, sizeof line);
    fill();
    for (int i = 0; argc == 1 && i < OPERATIONS; i++)
        printf("%s %d\n", operations[i].name, operations[i].found);
    if (argc == 1)
        return 0;
    if (argc != 3 || !set_up())
        return 2;
    for (int number = 0; number < OPERATIONS; number++)
        for (long i = atol(argv[2]); strcmp(operations[number].name, argv[1]) == 0 && i > 0; i--)
            perform(number);
    return 0;
}
