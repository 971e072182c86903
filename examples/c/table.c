/* Writes a run and its footer, checks it, reads keys of it, scans it, and damages it. */
#include "sst.h"
#include <stdio.h>
#include <stdlib.h>
#include <string.h>

#define COUNT 78
static uint8_t keys[COUNT][17], values[COUNT][32];
static struct sst_entry entries[COUNT];
static const size_t cuts[] = {20, 21, 60};
static struct sst_run_config config = {0, 1, 10, 4, 1, SST_XXH3};

static void fill(void) {
    for (int i = 0; i < COUNT; i++) {
        snprintf((char *)keys[i], sizeof keys[i], "tbl1%012x", 2 * (i / 2));
        memset(values[i], 'a' + i % 26, sizeof values[i]);
        entries[i] = (struct sst_entry){keys[i], 16, values[i], 32, 100 - i % 2,
                                        i == 5 ? SST_TOMBSTONE : SST_VALUE};
    }
}

static uint32_t write_run(uint8_t *out, size_t cap, size_t *len, struct sst_run_handles *handles) {
    uint32_t status = sst_run_write(entries, COUNT, cuts, 3, &config, out, cap, len, handles);
    printf("write %d entries into %zu bytes: %s, %zu, index %llu %u, filter %llu %u\n", COUNT, cap,
           sst_error_name(status), *len, (unsigned long long)handles->index_offset, handles->index_size,
           (unsigned long long)handles->filter_offset, handles->filter_size);
    return status;
}

static void check(const char *what, const uint8_t *run, size_t len, const struct sst_run_handles *handles) {
    struct sst_summary found = {0, 0, 0, 0};
    uint32_t status = sst_run_check(run, len, handles, SST_XXH3, &found);
    printf("check %s: %s, %zu blocks, %llu entries, numbers %llu to %llu\n", what, sst_error_name(status),
           found.blocks, (unsigned long long)found.entries, (unsigned long long)found.least_seqno,
           (unsigned long long)found.greatest_seqno);
    struct sst_summary again = {0, 0, 0, 0};
    struct sst_check_end end = {9, 9, 9, 9};
    static const char *const parts[] = {"block", "the index", "the filter"};
    if (sst_run_check_at(run, len, handles, SST_XXH3, &again, &end) != status || memcmp(&again, &found, sizeof found) != 0)
        printf("checked twice, and not the same\n");
    if (status != SST_OK)
        printf("  at %s %zu, the frame at %llu of %u bytes\n", parts[end.part], end.block,
               (unsigned long long)end.offset, end.size);
    else if (end.part != 9 || end.block != 9 || end.offset != 9 || end.size != 9)
        printf("  a place was noted\n");
}

static void get(const uint8_t *run, size_t len, const struct sst_run_handles *handles, const char *key,
                uint64_t below) {
    struct sst_place at = {0};
    uint32_t status = sst_run_get(run, len, handles, SST_XXH3, (const uint8_t *)key, strlen(key), below, &at);
    printf("get %s below %llu: %s", key, (unsigned long long)below, sst_error_name(status));
    if (status == SST_OK)
        printf(", seqno %llu, type %u, key %.*s%.*s, value %.*s", (unsigned long long)at.seqno, at.value_type,
               (int)at.prefix_len, (const char *)run + at.prefix_offset, (int)at.key_len,
               (const char *)run + at.key_offset, (int)at.value_len, (const char *)run + at.value_offset);
    printf("\n");
}

/* Reads a key of bytes that no check has seen, into a buffer of so many bytes. */
static void fetch(const uint8_t *run, size_t len, const struct sst_run_handles *handles, const char *key, uint64_t below,
                  size_t cap) {
    struct sst_found found = {7, 7, 7};
    uint8_t value[33];
    memset(value, '.', sizeof value);
    uint32_t status = sst_run_fetch(run, len, handles, SST_XXH3, (const uint8_t *)key, strlen(key), below, &found, value, cap);
    printf("fetch %s below %llu into %zu bytes: %s, seqno %llu, type %u, value of %zu, %.33s\n", key,
           (unsigned long long)below, cap, sst_error_name(status), (unsigned long long)found.seqno, found.value_type,
           found.value_len, (const char *)value);
}

/* Reads keys of the run as it is, and with a byte of a block turned that a read of another key does not see. */
static void fetch_some(uint8_t *run, size_t len, const struct sst_run_handles *handles) {
    fetch(run, len, handles, (const char *)keys[6], UINT64_MAX, 33);
    fetch(run, len, handles, (const char *)keys[6], 100, 32);
    fetch(run, len, handles, (const char *)keys[6], 100, 31);
    fetch(run, len, handles, (const char *)keys[6], 99, 33);
    fetch(run, len, handles, (const char *)keys[5], 100, 0);
    fetch(run, len, handles, "tbl2", UINT64_MAX, 33);
    run[2000] ^= 0x55;
    fetch(run, len, handles, (const char *)keys[6], 100, 33);
    fetch(run, len, handles, (const char *)keys[40], UINT64_MAX, 33);
    run[2000] ^= 0x55;
    fetch(run, len - 1, handles, (const char *)keys[6], 100, 33);
    fetch(run, 0, handles, (const char *)keys[6], 100, 33);
}

/* Whether a place is that of the entry at an index. */
static int is_at(const uint8_t *run, const struct sst_place *at, int i) {
    size_t value_len = i == 5 ? 0 : 32;
    return at->seqno == entries[i].seqno && at->value_type == entries[i].value_type &&
           at->prefix_len + at->key_len == 16 && memcmp(run + at->prefix_offset, keys[i], at->prefix_len) == 0 &&
           memcmp(run + at->key_offset, keys[i] + at->prefix_len, at->key_len) == 0 &&
           at->value_len == value_len && memcmp(run + at->value_offset, values[i], value_len) == 0;
}

/* Reads every entry of the run by its key and its number. */
static void get_all(const uint8_t *run, size_t len, const struct sst_run_handles *handles) {
    int right = 0;
    for (int i = 0; i < COUNT; i++) {
        struct sst_place at = {0};
        uint32_t status = sst_run_get(run, len, handles, SST_XXH3, keys[i], 16, entries[i].seqno + 1, &at);
        right += status == SST_OK && is_at(run, &at, i);
    }
    printf("of %d entries, found where they are: %d\n", COUNT, right);
}

/* The window of all entries of the run. */
static struct sst_window whole(const uint8_t *run, size_t len, const struct sst_run_handles *handles) {
    struct sst_window window;
    sst_run_range(run, len, handles, 0, run, 0, 0, run, 0, &window);
    return window;
}

/* The window of the entries of the block at an index. */
static struct sst_window block_at(const uint8_t *run, size_t len, const struct sst_run_handles *handles, size_t block) {
    struct sst_window window = whole(run, len, handles);
    window.first_block = block;
    if (block < window.end_block) window.end_block = block + 1, window.end_index = 0;
    return window;
}

/* Scans the run, block by block from its front, and at once from its back. */
static void scan(const uint8_t *run, size_t len, const struct sst_run_handles *handles) {
    static struct sst_place places[COUNT];
    struct sst_window all = whole(run, len, handles), window;
    size_t blocks = all.end_block + 1, count = 7;
    int next = 0, right = 0;
    printf("%zu blocks, of", blocks);
    for (size_t block = 0; block < blocks; block++) {
        window = block_at(run, len, handles, block);
        if (sst_run_scan(run, len, handles, &window, 0, 0, 0, places, COUNT, &count) != SST_OK) return;
        printf(" %zu", count);
        for (size_t i = 0; i < count; i++) right += is_at(run, &places[i], next++);
    }
    if (sst_run_scan(run, len, handles, &all, 0, 0, 1, places, COUNT, &count) != SST_OK) return;
    for (size_t i = 0; i < count; i++) right += is_at(run, &places[i], --next);
    printf(" entries; from both ends, where they are: %d\n", right);
}

/* Lists a block in two batches, and a block that the run does not have. */
static void scan_part(const uint8_t *run, size_t len, const struct sst_run_handles *handles) {
    static struct sst_place places[38];
    struct sst_window window = block_at(run, len, handles, 2);
    size_t count = 7;
    uint32_t status = sst_run_scan(run, len, handles, &window, 0, 0, 0, places, 38, &count);
    printf("38 places for block 2: %s, %zu, ", sst_error_name(status), count);
    status = sst_run_scan(run, len, handles, &window, 0, 0, 0, places, 38, &count);
    printf("then %s, %zu; ", sst_error_name(status), count);
    window = block_at(run, len, handles, 4);
    status = sst_run_scan(run, len, handles, &window, 0, 0, 0, places, 38, &count);
    printf("block 4: %s, %zu\n", sst_error_name(status), count);
}

static void print_first(const uint8_t *run, size_t len, const struct sst_run_handles *handles, const char *name,
                        const uint8_t *key, size_t key_len) {
    struct sst_window window;
    sst_run_range(run, len, handles, 1, key, key_len, 0, key, 0, &window);
    printf(" %s (%zu, %zu)", name, window.first_block, window.first_index);
}

/* Prints where the entries from a key on begin: block, and index in it. */
static void seek(const uint8_t *run, size_t len, const struct sst_run_handles *handles) {
    const int sought[] = {0, 19, 20, 21, 22, 59, 60, 77};
    char name[12];
    printf("begin:");
    for (size_t i = 0; i < sizeof sought / sizeof *sought; i++) {
        snprintf(name, sizeof name, "%d", sought[i]);
        print_first(run, len, handles, name, keys[sought[i]], 16);
    }
    print_first(run, len, handles, "a", (const uint8_t *)"a", 1);
    print_first(run, len, handles, "u", (const uint8_t *)"u", 1);
    printf("\n");
}

/* Writes the footer of a run, and reads it again: whole, and a byte less. */
static void end_table(const struct sst_run_handles *handles) {
    uint8_t file[25] = {0};
    size_t len = 0;
    struct sst_run_handles again = {1, 2, 3, 4};
    printf("footer into 23 bytes: %s, ", sst_error_name(sst_footer_write(handles, file + 1, 23, &len)));
    printf("%zu, into 24: %s; ", len, sst_error_name(sst_footer_write(handles, file + 1, 24, &len)));
    printf("of 23 bytes: %s, %llu; ", sst_error_name(sst_footer_read(file + 2, 23, &again)),
           (unsigned long long)again.index_offset);
    printf("of 25: %s, ", sst_error_name(sst_footer_read(file, 25, &again)));
    printf("index %llu %u, filter %llu %u\n", (unsigned long long)again.index_offset, again.index_size,
           (unsigned long long)again.filter_offset, again.filter_size);
}

/* Writes what can't be written. */
static void refuse(void) {
    uint8_t out[16];
    size_t len = 0;
    const size_t falling[] = {20, 20}, behind[] = {COUNT};
    struct sst_run_handles handles = {1, 2, 3, 4};
    printf("cuts that don't rise: %s, ",
           sst_error_name(sst_run_write(entries, COUNT, falling, 2, &config, out, 16, &len, &handles)));
    printf("behind the end: %s, ",
           sst_error_name(sst_run_write(entries, COUNT, behind, 1, &config, out, 16, &len, &handles)));
    printf("no entry: %s, ", sst_error_name(sst_run_write(entries, 0, cuts, 0, &config, out, 16, &len, &handles)));
    config.index_interval = 0;
    write_run(out, 16, &len, &handles);
    config.index_interval = 1;
}

int main(void) {
    fill();
    refuse();
    struct sst_run_handles handles = {0, 0, 0, 0};
    size_t len = 0;
    uint8_t small[16];
    write_run(small, sizeof small, &len, &handles);
    uint8_t *run = malloc(len);
    if (run == NULL || write_run(run, len, &len, &handles) != SST_OK) return 1;
    check("the run", run, len, &handles);
    end_table(&handles);
    get(run, len, &handles, (const char *)keys[6], UINT64_MAX);
    get(run, len, &handles, (const char *)keys[6], 100);
    get(run, len, &handles, (const char *)keys[6], 99);
    get(run, len, &handles, (const char *)keys[5], 100);
    get(run, len, &handles, "tbl2", UINT64_MAX);
    get_all(run, len, &handles);
    fetch_some(run, len, &handles);
    scan(run, len, &handles);
    scan_part(run, len, &handles);
    seek(run, len, &handles);
    /* the magic of a block, a byte of two blocks, of the index, of the filter */
    const size_t places[] = {0, 50, 2000, (size_t)handles.index_offset + 40, len - 1};
    for (size_t i = 0; i < sizeof places / sizeof *places; i++) {
        char what[48];
        snprintf(what, sizeof what, "byte %zu turned", places[i]);
        run[places[i]] ^= 0x55;
        check(what, run, len, &handles);
        run[places[i]] ^= 0x55;
    }
    check("a byte less", run, len - 1, &handles);
    handles.filter_size = 0;
    check("without a filter", run, len, &handles);
    end_table(&handles);
    get_all(run, len, &handles);
    handles.index_offset = handles.filter_offset;
    check("another index", run, len, &handles);
    free(run);
    return 0;
}
