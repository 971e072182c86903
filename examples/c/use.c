/* Writes a data block, checks it, reads keys, lists all entries, and damages it. */
#include "sst.h"
#include <stdio.h>
#include <stdlib.h>
#include <string.h>

#define COUNT 78
static uint8_t keys[COUNT][17], values[COUNT][32];
static struct sst_entry entries[COUNT];

static void fill(void) {
    for (int i = 0; i < COUNT; i++) {
        snprintf((char *)keys[i], sizeof keys[i], "tbl1%012x", 2 * i);
        memset(values[i], 'a' + i % 26, sizeof values[i]);
        entries[i] = (struct sst_entry){keys[i], 16, values[i], 32, 100 + i,
                                        i == 5 ? SST_TOMBSTONE : SST_VALUE};
    }
}

static void encode(uint8_t *out, size_t cap, size_t *len, size_t count, uint8_t interval) {
    uint32_t status = sst_data_block_encode(entries, count, interval, 1, 2, SST_XXH3, out, cap, len);
    printf("encode %zu at %u into %zu bytes: %s, %zu\n", count, interval, cap, sst_error_name(status), *len);
}

static void find(const uint8_t *block, size_t len, const char *key, uint64_t below) {
    struct sst_place at = {0};
    uint32_t status = sst_data_block_find(block, len, SST_XXH3, (const uint8_t *)key, strlen(key), below, &at);
    printf("find %s below %llu: %s", key, (unsigned long long)below, sst_error_name(status));
    if (status == SST_OK)
        printf(", seqno %llu, type %u, key %.*s%.*s, value %.*s", (unsigned long long)at.seqno, at.value_type,
               (int)at.prefix_len, (const char *)block + at.prefix_offset, (int)at.key_len,
               (const char *)block + at.key_offset, (int)at.value_len, (const char *)block + at.value_offset);
    printf("\n");
}

/* Lists the entries of a block from the front into places, and compares them with those that were given. */
static void list(const uint8_t *block, size_t len, struct sst_place *places, size_t cap) {
    struct sst_window left = {0, 0, 0, 0};
    size_t count = 0, same = 0;
    sst_data_block_check(block, len, SST_XXH3, &left.end_index);
    uint32_t status = sst_data_block_scan(block, len, &left, 0, 0, 0, places, cap, &count);
    for (size_t i = 0; status == SST_OK && i < count; i++) {
        const struct sst_place *at = &places[i];
        const struct sst_entry *given = &entries[i];
        size_t value_len = given->value_type == SST_TOMBSTONE ? 0 : given->value_len;
        same += at->seqno == given->seqno && at->value_type == given->value_type &&
                at->prefix_len + at->key_len == given->key_len &&
                memcmp(block + at->prefix_offset, given->key, at->prefix_len) == 0 &&
                memcmp(block + at->key_offset, given->key + at->prefix_len, at->key_len) == 0 &&
                at->value_len == value_len && memcmp(block + at->value_offset, given->value, value_len) == 0;
    }
    printf("list into %zu places: %s, %zu, %zu as given, left are %zu to %zu\n", cap, sst_error_name(status),
           count, same, left.first_index, left.end_index);
}

/* Lists into no places, too few by one, just enough, and one more: the places after the listed ones are left. */
static void use_entries(const uint8_t *block, size_t len) {
    static struct sst_place places[COUNT + 1];
    for (size_t i = 0; i <= COUNT; i++) places[i].seqno = 7;
    list(block, len, places, 0);
    printf("first place: %llu\n", (unsigned long long)places[0].seqno);
    list(block, len, places, COUNT - 1);
    printf("place %d: %llu\n", COUNT - 1, (unsigned long long)places[COUNT - 1].seqno);
    list(block, len, places, COUNT);
    list(block, len, places, COUNT + 1);
    printf("place %d: %llu\n", COUNT, (unsigned long long)places[COUNT].seqno);
}

static void check(const char *what, const uint8_t *block, size_t len) {
    size_t count = 0, handles = 0;
    uint32_t status = sst_data_block_check(block, len, SST_XXH3, &count);
    printf("check %s: %s, %zu entries; as an index block: %s\n", what, sst_error_name(status), count,
           sst_error_name(sst_index_block_check(block, len, &handles)));
}

static void route(const uint8_t *index, size_t len, const char *key, uint64_t below) {
    struct sst_handle at = {0, 0};
    uint32_t status = sst_index_block_find(index, len, (const uint8_t *)key, strlen(key), below, &at);
    printf("route %s below %llu: %s, %llu, %u\n", key, (unsigned long long)below, sst_error_name(status),
           (unsigned long long)at.offset, at.size);
}

/* Prints the handles of an index block from an index on, one in each call. */
static void print_handles(const uint8_t *index, size_t len, size_t from) {
    struct sst_handle_place at;
    size_t count = 1;
    uint32_t status = SST_OK;
    printf("handles from %zu on:", from);
    while (count > 0 && (status = sst_index_block_scan(index, len, from, &at, 1, &count)) == SST_OK && count > 0) {
        printf(" %.*s%.*s %llu at %llu, %u;", (int)at.prefix_len, (const char *)index + at.prefix_offset,
               (int)at.key_len, (const char *)index + at.key_offset, (unsigned long long)at.seqno,
               (unsigned long long)at.offset, at.size);
        from++;
    }
    printf(" %s\n", sst_error_name(status));
}

static void print_seek(const uint8_t *index, size_t len, const char *key, uint64_t below) {
    printf(" %s %zu", key, sst_index_block_seek(index, len, (const uint8_t *)key, strlen(key), below));
}

/* Lists five handles in restart intervals of three, whose keys share a prefix, and seeks. */
static void list_index(void) {
    static const char *const ends[] = {"key-a", "key-b", "key-b", "key-c", "key-d"};
    struct sst_keyed_handle handles[5];
    struct sst_handle_place places[4];
    uint8_t index[200];
    size_t len = 0, count = 7;
    for (size_t i = 0; i < 5; i++) handles[i] = (struct sst_keyed_handle){(const uint8_t *)ends[i], 5, 9 - i, 100 * i, 100};
    uint32_t status = sst_index_block_encode(handles, 5, 3, index, sizeof index, &len);
    printf("encode 5 handles at 3: %s, %zu\n", sst_error_name(status), len);
    for (size_t from = 0; from <= 5; from += 2) print_handles(index, len, from);
    places[2].seqno = 77;
    status = sst_index_block_scan(index, len, 3, places, 4, &count);
    printf("4 places from 3 on: %s, %zu, place 2: %llu\n", sst_error_name(status), count, (unsigned long long)places[2].seqno);
    status = sst_index_block_scan(index, len, 6, places, 4, &count);
    printf("from 6 on: %s, %zu\nseek:", sst_error_name(status), count);
    print_seek(index, len, "key", 5);
    print_seek(index, len, "key-b", UINT64_MAX);
    print_seek(index, len, "key-b", 8);
    print_seek(index, len, "key-b", 7);
    print_seek(index, len, "key-c", 1);
    print_seek(index, len, "key-e", 5);
    printf("\n");
}

/* Encodes two handles as an index block, and looks up keys. */
static void use_index(void) {
    struct sst_keyed_handle handles[2] = {{(const uint8_t *)"b", 1, 5, 0, 100},
                                          {(const uint8_t *)"d", 1, 3, 100, 50}};
    uint8_t index[100];
    size_t len = 0, count = 0;
    uint32_t status = sst_index_block_encode(handles, 2, 1, index, sizeof index, &len);
    printf("encode 2 handles: %s, %zu\n", sst_error_name(status), len);
    printf("check the index: %s, ", sst_error_name(sst_index_block_check(index, len, &count)));
    printf("%zu handles\n", count);
    route(index, len, "a", UINT64_MAX);
    route(index, len, "b", UINT64_MAX);
    route(index, len, "b", 5);
    route(index, len, "d", UINT64_MAX);
    route(index, len, "e", UINT64_MAX);
    handles[1].offset = UINT64_MAX;
    status = sst_index_block_encode(handles, 2, 1, index, sizeof index, &len);
    printf("encode a frame that ends at 2^64: %s\n", sst_error_name(status));
    status = sst_index_block_encode(handles, 2, 0, index, sizeof index, &len);
    printf("encode at 0: %s\n", sst_error_name(status));
}

/* Builds a filter of all keys, and asks it. */
static void use_filter(void) {
    struct sst_bytes names[COUNT];
    for (int i = 0; i < COUNT; i++) names[i] = (struct sst_bytes){keys[i], 16};
    uint8_t filter[200];
    size_t len = 0;
    uint32_t status = sst_filter_build(names, COUNT, 10, SST_XXH3, filter, sizeof filter, &len);
    printf("build a filter: %s, %zu\n", sst_error_name(status), len);
    int found = 0;
    for (int i = 0; i < COUNT; i++) found += sst_filter_may_contain(filter, len, SST_XXH3, keys[i], 16) == SST_OK;
    printf("of %d keys: %d\n", COUNT, found);
    printf("another key: %s\n", sst_error_name(sst_filter_may_contain(filter, len, SST_XXH3, (const uint8_t *)"tbl100000000000f", 16)));
    printf("21 bytes: %s\n", sst_error_name(sst_filter_may_contain(filter, 21, SST_XXH3, keys[0], 16)));
    filter[0] ^= 1;
    printf("other magic: %s\n", sst_error_name(sst_filter_may_contain(filter, len, SST_XXH3, keys[0], 16)));
    status = sst_filter_build(names, 0, 10, SST_XXH3, filter, sizeof filter, &len);
    printf("of no key: %s\n", sst_error_name(status));
}

/* Builds the same filter of the hashes that a block's write gives, and asks it by hash. */
static void use_hashes(void) {
    static uint8_t frame[4096], by_keys[200], by_hashes[200];
    static uint64_t hashes[COUNT];
    struct sst_run_config config = {0, 1, 10, 16, 1, SST_POLY31};
    struct sst_bytes names[COUNT];
    size_t len = 0, key_len = 0;
    fill();
    for (int i = 0; i < COUNT; i++) names[i] = (struct sst_bytes){keys[i], 16};
    printf("hashes of a block: %s; ", sst_error_name(sst_run_block_write(entries, COUNT, &config, frame, sizeof frame, &len, hashes, COUNT)));
    printf("a filter of the keys: %s\n", sst_error_name(sst_filter_build(names, COUNT, 10, SST_POLY31, by_keys, sizeof by_keys, &key_len)));
    printf("build a filter of hashes: %s, ", sst_error_name(sst_filter_build_hashes(hashes, COUNT, 10, by_hashes, sizeof by_hashes, &len)));
    printf("%s as that of the keys\n", len == key_len && memcmp(by_keys, by_hashes, len) == 0 ? "the same" : "not the same");
    int found = 0;
    for (int i = 0; i < COUNT; i++) found += sst_filter_may_contain_hash(by_hashes, len, hashes[i]) == SST_OK;
    printf("of %d hashes: %d; ", COUNT, found);
    printf("another: %s, ", sst_error_name(sst_filter_may_contain_hash(by_hashes, len, hashes[0] + 1)));
    printf("21 bytes: %s, ", sst_error_name(sst_filter_may_contain_hash(by_hashes, 21, hashes[0])));
    printf("into 21 bytes: %s, ", sst_error_name(sst_filter_build_hashes(hashes, COUNT, 10, by_hashes, 21, &len)));
    printf("of no hash: %s, ", sst_error_name(sst_filter_build_hashes(hashes, 0, 10, by_hashes, sizeof by_hashes, &len)));
    printf("of no bit: %s\n", sst_error_name(sst_filter_build_hashes(hashes, COUNT, 0, by_hashes, sizeof by_hashes, &len)));
}

/* Writes a frame, checks it, and damages it. */
static void use_frame(const uint8_t *block, size_t block_len) {
    static uint8_t frame[4096];
    size_t len = 0, payload_len = 0;
    uint8_t type = 9;
    uint32_t status = sst_frame_write(block, block_len, 0, SST_XXH3, frame, sizeof frame, &len);
    printf("write a frame: %s, %zu\n", sst_error_name(status), len);
    status = sst_frame_check(frame, len, SST_XXH3, &type, &payload_len);
    printf("check it: %s, type %u, %zu bytes\n", sst_error_name(status), type, payload_len);
    const size_t places[] = {0, 4, 5, 25, 32, 33, len - 1};
    for (size_t i = 0; i < sizeof places / sizeof *places; i++) {
        frame[places[i]] ^= 0x55;
        status = sst_frame_check(frame, len, SST_XXH3, &type, &payload_len);
        printf("byte %zu of it turned: %s\n", places[i], sst_error_name(status));
        frame[places[i]] ^= 0x55;
    }
    printf("a byte less: %s\n", sst_error_name(sst_frame_check(frame, len - 1, SST_XXH3, &type, &payload_len)));
    printf("of type 4: %s\n", sst_error_name(sst_frame_write(block, block_len, 4, SST_XXH3, frame, sizeof frame, &len)));
}

int main(void) {
    printf("the version is %s\n", sst_version() == SST_VERSION ? "the header's" : "another");
    fill();
    uint8_t small[16];
    size_t len = 0;
    encode(small, sizeof small, &len, COUNT, 16);
    uint8_t *block = malloc(len);
    if (block == NULL) return 1;
    encode(block, len, &len, COUNT, 16);
    check("the block", block, len);
    find(block, len, (const char *)keys[7], UINT64_MAX);
    find(block, len, (const char *)keys[5], UINT64_MAX);
    find(block, len, (const char *)keys[7], 107);
    find(block, len, "tbl2", UINT64_MAX);
    use_entries(block, len);
    size_t unused = 0;
    encode(small, sizeof small, &unused, 0, 16);
    encode(small, sizeof small, &unused, COUNT, 0);
    entries[0].value_type = 3;
    encode(small, sizeof small, &unused, COUNT, 16);
    entries[0].value_type = SST_VALUE;
    entries[0].key_len = 0;
    encode(small, sizeof small, &unused, COUNT, 16);
    entries[0] = entries[77];
    encode(small, sizeof small, &unused, COUNT, 16);
    /* in a form, in a key, in the binary index, in the hash index, in the trailer */
    const size_t places[] = {0, 5, len - 31 - 39 - 10, len - 31 - 1, len - 31, len - 1};
    for (size_t i = 0; i < sizeof places / sizeof *places; i++) {
        char what[48];
        snprintf(what, sizeof what, "byte %zu turned", places[i]);
        block[places[i]] ^= 0x55;
        check(what, block, len);
        block[places[i]] ^= 0x55;
    }
    check("30 bytes", block, 30);
    check("no bytes", block, 0);
    use_frame(block, len);
    free(block);
    use_index();
    list_index();
    use_filter();
    use_hashes();
    return 0;
}
