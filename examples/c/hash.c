/* Writes, checks and reads by each hash function; what one wrote is refused by the other's check, and any other
   number by each call. */
#include "sst.h"
#include <stdio.h>
#include <string.h>

enum { COUNT = 40, CAP = 8192, LEFT = 0x5a };
_Static_assert(sizeof(struct sst_run_config) == 16 && offsetof(struct sst_run_config, hash) == 14, "the layout");

static const char *const names[] = {"XXH3", "Poly31"};
static char keys[COUNT][16];
static struct sst_entry entries[COUNT];
static struct sst_bytes given[COUNT];
static const size_t cuts[] = {7, 20};
static uint8_t block[CAP], filter[CAP], frame[CAP], run[CAP], out[CAP];
static size_t block_len, filter_len, frame_len, run_len;
static struct sst_run_handles handles;

static void fill(void) {
    for (int i = 0; i < COUNT; i++) {
        snprintf(keys[i], sizeof keys[i], "key%03d", i);
        const uint8_t *key = (const uint8_t *)keys[i];
        entries[i] = (struct sst_entry){key, 6, key, 6, 9, SST_VALUE};
        given[i] = (struct sst_bytes){key, 6};
    }
}

static struct sst_run_config config_by(uint16_t hash) { return (struct sst_run_config){1, 1, 10, 4, 1, hash}; }

static int write_all(uint32_t hash) {
    struct sst_run_config config = config_by((uint16_t)hash);
    return sst_data_block_encode(entries, COUNT, 4, 1, 1, hash, block, CAP, &block_len) == SST_OK &&
           sst_filter_build(given, COUNT, 10, hash, filter, CAP, &filter_len) == SST_OK &&
           sst_frame_write(block, block_len, 0, hash, frame, CAP, &frame_len) == SST_OK &&
           sst_run_write(entries, COUNT, cuts, 2, &config, run, CAP, &run_len, &handles) == SST_OK;
}

/* Writes the same run block by block. Whether it is the same. */
static int in_pieces(uint32_t hash) {
    struct sst_run_config config = config_by((uint16_t)hash);
    static uint64_t hashes[COUNT];
    struct sst_keyed_handle blocks[3];
    struct sst_run_handles found;
    size_t first[] = {0, cuts[0], cuts[1], COUNT}, at = 0, len = 0;
    for (int b = 0; b < 3; b++) {
        size_t count = first[b + 1] - first[b];
        if (sst_run_block_write(entries + first[b], count, &config, out + at, CAP - at, &len, hashes + first[b], count)) return 0;
        blocks[b] = (struct sst_keyed_handle){(const uint8_t *)keys[first[b + 1] - 1], 6, 9, at, (uint32_t)len};
        at += len;
    }
    if (sst_run_end_write(blocks, 3, hashes, COUNT, &config, out + at, CAP - at, &len, &found)) return 0;
    return at + len == run_len && memcmp(out, run, run_len) == 0 && memcmp(&found, &handles, sizeof found) == 0;
}

/* What the checks of a hash function say of what is written. */
static void check_all(uint32_t hash) {
    size_t count = 0, payload_len = 0;
    uint8_t type = 9;
    struct sst_summary found = {0, 0, 0, 0};
    struct sst_check_end end = {9, 9, 9, 9};
    printf("  by %s: block %s", names[hash], sst_error_name(sst_data_block_check(block, block_len, hash, &count)));
    printf(", frame %s", sst_error_name(sst_frame_check(frame, frame_len, hash, &type, &payload_len)));
    printf(", run %s", sst_error_name(sst_run_check(run, run_len, &handles, hash, &found)));
    printf(", %s", sst_error_name(sst_run_check_at(run, run_len, &handles, hash, &found, &end)));
    printf("; %zu, %u, %zu, %llu, at %u\n", count, type, payload_len, (unsigned long long)found.entries, end.part);
}

static int filter_says(uint32_t hash) {
    int may = 0;
    for (int i = 0; i < COUNT; i++) may += sst_filter_may_contain(filter, filter_len, hash, given[i].data, 6) == SST_OK;
    return may;
}

/* Finds each key in block and run, and lists the run, for which no hash is needed. */
static void read_all(uint32_t hash) {
    static struct sst_place places[COUNT + 1];
    int found = 0, got = 0;
    size_t count = 0;
    struct sst_window all;
    for (int i = 0; i < COUNT; i++) {
        struct sst_place at;
        found += sst_data_block_find(block, block_len, hash, given[i].data, 6, 10, &at) == SST_OK &&
                 memcmp(block + at.value_offset, keys[i], 6) == 0;
        got += sst_run_get(run, run_len, &handles, hash, given[i].data, 6, 10, &at) == SST_OK &&
               memcmp(run + at.value_offset, keys[i], 6) == 0;
    }
    sst_run_range(run, run_len, &handles, 0, run, 0, 0, run, 0, &all);
    sst_run_scan(run, run_len, &handles, &all, 0, 0, 0, places, COUNT + 1, &count);
    printf("  found in the block %d, in the run %d, listed %zu; the filter may have %d\n", found, got, count, filter_says(hash));
}

/* The hash of a key, as a filter has it. */
static void print_hash(uint16_t hash, const char *key) {
    struct sst_run_config config = config_by(hash);
    struct sst_entry entry = {(const uint8_t *)key, strlen(key), (const uint8_t *)"", 0, 0, SST_VALUE};
    uint64_t known = 0;
    size_t len = 0;
    sst_run_block_write(&entry, 1, &config, out, CAP, &len, &known, 1);
    printf("  hash of \"%s\": %llu\n", key, (unsigned long long)known);
}

/* Gives each call a number that is no hash function's. */
static void refuse(uint32_t hash) {
    struct sst_run_config config = config_by((uint16_t)hash);
    struct sst_keyed_handle one = {(const uint8_t *)"k", 1, 9, 0, 40};
    struct { size_t len; uint8_t type; uint64_t hash; struct sst_place place; struct sst_summary summary; struct sst_check_end end; struct sst_run_handles handles; } to;
    uint8_t bytes[64], untouched[sizeof to];
    const uint8_t *key = given[0].data;
    memset(&to, LEFT, sizeof to), memset(bytes, LEFT, sizeof bytes), memset(untouched, LEFT, sizeof untouched);
    const uint32_t statuses[] = {
        sst_data_block_encode(entries, COUNT, 4, 1, 1, hash, bytes, 64, &to.len),
        sst_data_block_check(block, block_len, hash, &to.len),
        sst_data_block_find(block, block_len, hash, key, 6, 10, &to.place),
        sst_filter_build(given, COUNT, 10, hash, bytes, 64, &to.len),
        sst_filter_may_contain(filter, filter_len, hash, key, 6),
        sst_frame_write(key, 6, 0, hash, bytes, 64, &to.len),
        sst_frame_check(frame, frame_len, hash, &to.type, &to.len),
        sst_run_write(entries, COUNT, cuts, 2, &config, bytes, 64, &to.len, &to.handles),
        sst_run_block_write(entries, 1, &config, bytes, 64, &to.len, &to.hash, 1),
        sst_run_end_write(&one, 1, &to.hash, 1, &config, bytes, 64, &to.len, &to.handles),
        sst_run_check(run, run_len, &handles, hash, &to.summary),
        sst_run_check_at(run, run_len, &handles, hash, &to.summary, &to.end),
        sst_run_get(run, run_len, &handles, hash, key, 6, 10, &to.place)};
    size_t calls = sizeof statuses / sizeof *statuses, refused = 0;
    for (size_t i = 0; i < calls; i++) refused += statuses[i] == SST_BAD_ARGUMENT;
    int left = memcmp(&to, untouched, sizeof to) == 0 && memcmp(bytes, untouched, sizeof bytes) == 0;
    printf("%u: of %zu calls refused %zu, %s\n", hash, calls, refused, left ? "all left" : "something written");
}

int main(void) {
    fill();
    for (uint32_t hash = SST_XXH3; hash <= SST_POLY31; hash++) {
        if (!write_all(hash)) return 1;
        printf("written by %s: %zu, %zu, %zu, %zu bytes; in pieces %s\n", names[hash], block_len, filter_len, frame_len,
               run_len, in_pieces(hash) ? "the same" : "another run");
        check_all(SST_XXH3);
        check_all(SST_POLY31);
        read_all(hash);
        printf("  by the other hash the filter may have %d\n", filter_says(1 - hash));
        print_hash((uint16_t)hash, "ab");
    }
    refuse(2);
    refuse(UINT16_MAX);
    refuse(UINT32_MAX);
    return 0;
}
