/* Opens runs, with a table and without, and finds in them what sst_run_get finds. */
#include "sst.h"
#include <stdio.h>
#include <stdlib.h>
#include <string.h>

#define COUNT 600
static char keys[COUNT][40];
static struct sst_entry entries[COUNT];
static size_t cuts[COUNT];
static uint8_t run[1 << 16];
static const uint64_t left_there = 0xabcdef;

/* How the keys of a run are made of a number: a prefix, and the number, which is unique, shared by four blocks, or
   behind eight bytes that are the same. */
static const struct {
    const char *name, *format;
    int divisor;
} kinds[] = {
    {"keys of one length", "user%012d", 1},   {"short keys", "%03d", 1},        {"versions over blocks", "k%07d", 30},
    {"fronts that are equal", "p%02d-fillfill-%05d", 1}, {"keys of two lengths", "long%d", 1},
};

static void key_of(size_t kind, int number, char *key) {
    if (kind == 3)
        snprintf(key, sizeof keys[0], kinds[kind].format, number / 300, number);
    else if (kind == 4)
        snprintf(key, sizeof keys[0], kinds[kind].format, 100 + number + (number >= 300 ? 100000 : 0));
    else
        snprintf(key, sizeof keys[0], kinds[kind].format, number);
}

static int by_key(const void *a, const void *b) { return strcmp(a, b); }

/* Writes a run of such entries, and returns its length. */
static size_t write_run(size_t kind, struct sst_run_config *config, struct sst_run_handles *handles) {
    size_t len = 0, cut_count = 0;
    for (int i = 0; i < COUNT; i++) key_of(kind, 2 * (i / kinds[kind].divisor), keys[i]);
    qsort(keys, COUNT, sizeof keys[0], by_key);
    for (int i = 0; i < COUNT; i++)
        entries[i] = (struct sst_entry){(uint8_t *)keys[i], strlen(keys[i]), (uint8_t *)keys[i], 4, 10000 - i,
                                        i % 9 ? SST_VALUE : SST_TOMBSTONE};
    for (size_t i = 7; i < COUNT; i += 7) cuts[cut_count++] = i;
    uint32_t status = sst_run_write(entries, COUNT, cuts, cut_count, config, run, sizeof run, &len, handles);
    struct sst_summary summary;
    if (status != SST_OK || sst_run_check(run, len, handles, config->hash, &summary) != SST_OK) {
        printf("no run: %s\n", sst_error_name(status));
        exit(1);
    }
    return len;
}

/* Whether a find and a get of a key below a number agree, in code and place. */
static int agree(size_t len, const struct sst_run_handles *handles, const struct sst_open_run *open,
                 const uint64_t *numbers, size_t cap, const char *key, uint64_t below, int *found) {
    struct sst_place one, other;
    memset(&one, 7, sizeof one);
    memset(&other, 7, sizeof other);
    uint32_t a = sst_run_get(run, len, handles, open->hash, (const uint8_t *)key, strlen(key), below, &one);
    uint32_t b = sst_run_find(run, len, open, numbers, cap, (const uint8_t *)key, strlen(key), below, &other);
    *found += a == SST_OK;
    return a == b && memcmp(&one, &other, sizeof one) == 0;
}

/* Asks for each key at numbers around its own, and for keys that are not there. */
static void find_all(size_t kind, size_t len, const struct sst_run_handles *handles, const struct sst_open_run *open,
                     const uint64_t *numbers, size_t cap) {
    static const char *const others[] = {"", "a", "k", "l", "long", "p", "u", "user", "user0", "v", "zzzzzzzzzzzzzzzzzzzz",
                                         "user000000000000x", "user00000000000", "user\xff\xff\xff\xff\xff\xff\xff\xff\xff"};
    int asked = 0, same = 0, found = 0;
    char key[sizeof keys[0]];
    for (int i = 0; i < COUNT; i++) {
        const uint64_t below[] = {0, entries[i].seqno, entries[i].seqno + 1, UINT64_MAX};
        for (size_t j = 0; j < sizeof below / sizeof *below; j++, asked++)
            same += agree(len, handles, open, numbers, cap, keys[i], below[j], &found);
        key_of(kind, 2 * i + 1, key);
        asked++, same += agree(len, handles, open, numbers, cap, key, UINT64_MAX, &found);
    }
    for (size_t i = 0; i < sizeof others / sizeof *others; i++, asked++)
        same += agree(len, handles, open, numbers, cap, others[i], UINT64_MAX, &found);
    printf("  asked %d, there %d, as a get: %d\n", asked, found, same);
}

/* Opens a run with room for so many numbers, and finds in it. */
static void open_with(size_t kind, size_t len, const struct sst_run_handles *handles, uint32_t hash, size_t cap) {
    static uint64_t numbers[COUNT];
    struct sst_open_run open;
    for (int i = 0; i < COUNT; i++) numbers[i] = left_there;
    uint32_t status = sst_run_open(run, len, handles, hash, numbers, cap, &open);
    size_t kept = 0;
    for (size_t i = open.fronts; i < COUNT; i++) kept += numbers[i] == left_there;
    printf("  room for %zu: %s, %zu blocks, a table of %zu, others left: %s\n", cap, sst_error_name(status), open.blocks,
           open.fronts, open.fronts + kept == COUNT ? "all" : "not all");
    find_all(kind, len, handles, &open, numbers, cap);
}

/* The same with a number that is no hash function's: all is left. */
static void open_wrong(size_t len, const struct sst_run_handles *handles) {
    uint64_t number = left_there;
    struct sst_open_run open, was;
    struct sst_place place, before;
    memset(&open, 5, sizeof open);
    memset(&place, 5, sizeof place);
    was = open, before = place;
    uint32_t status = sst_run_open(run, len, handles, 2, &number, 1, &open);
    printf("hash 2: %s, left %d", sst_error_name(status), number == left_there && memcmp(&open, &was, sizeof open) == 0);
    sst_run_open(run, len, handles, SST_XXH3, &number, 0, &open);
    open.hash = 2;
    status = sst_run_find(run, len, &open, &number, 0, (const uint8_t *)"k", 1, 1, &place);
    printf("; a find: %s, left %d\n", sst_error_name(status), memcmp(&place, &before, sizeof place) == 0);
}

int main(void) {
    struct sst_run_handles handles;
    size_t len = 0;
    printf("size: %d\n", sst_open_run_size() == sizeof(struct sst_open_run));
    for (size_t kind = 0; kind < sizeof kinds / sizeof *kinds; kind++) {
        struct sst_run_config config = {0, 1, kind % 2 ? 10 : 0, 4, 1, kind % 2 ? SST_POLY31 : SST_XXH3};
        len = write_run(kind, &config, &handles);
        printf("%s\n", kinds[kind].name);
        open_with(kind, len, &handles, config.hash, COUNT);
        open_with(kind, len, &handles, config.hash, 86);
        open_with(kind, len, &handles, config.hash, 85);
    }
    struct sst_run_config config = {0, 1, 0, 4, 3, SST_XXH3};
    len = write_run(0, &config, &handles);
    printf("index interval 3\n");
    open_with(0, len, &handles, SST_XXH3, COUNT);
    open_wrong(len, &handles);
    return 0;
}
