/* Compacts three runs into one: for snapshots, in a range of keys, and at the bottom. What is written is a run, and each byte
   of it is that of sst_run_write of the entries that have to stay. */
#include "sst.h"
#include <stdio.h>
#include <string.h>

enum { RUNS = 3, MOST = 32, CAP = 8192, LEFT = 0x5a };
_Static_assert(sizeof(struct sst_run) == 40 && offsetof(struct sst_run, handles) == 16, "the layout");

/* What is compacted, the newest run first: keys, sequence numbers, types and values. */
static struct sst_entry given[RUNS][MOST];
static size_t counts[RUNS];
static char values[RUNS * MOST][8];
static uint8_t texts[RUNS][CAP];
static struct sst_run runs[RUNS];

static const char *const names[] = {"a", "b", "c", "d", "e"};
static const struct sst_run_config config = {1, 1, 10, 4, 1, SST_XXH3};

struct how {
    const char *from, *to; /* or null */
    uint64_t snapshots[4];
    size_t snapshot_count, block_size;
    uint8_t is_bottom;
};

static void add(int run, int key, uint64_t seqno, uint8_t type) {
    size_t at = counts[run]++;
    char *value = values[run * MOST + (int)at];
    size_t len = type == SST_VALUE ? (size_t)snprintf(value, 8, "%d%s%d", run, names[key], (int)seqno) : 0;
    given[run][at] = (struct sst_entry){(const uint8_t *)names[key], 1, (const uint8_t *)value, len, seqno, type};
}

/* Does the first entry sort before the second? */
static int is_before(const struct sst_entry *x, const struct sst_entry *y) {
    return x->key[0] != y->key[0] ? x->key[0] < y->key[0] : x->seqno > y->seqno;
}

/* Sorts entries; equal ones keep their order. */
static void sort(struct sst_entry *entries, size_t count) {
    for (size_t i = 1; i < count; i++)
        for (size_t j = i; j > 0 && is_before(&entries[j], &entries[j - 1]); j--) {
            struct sst_entry one = entries[j];
            entries[j] = entries[j - 1], entries[j - 1] = one;
        }
}

/* Writes each run, in two blocks where it has two entries; by one hash function and the other. */
static void write_runs(void) {
    static const size_t cuts[] = {1};
    for (int run = 0; run < RUNS; run++) {
        struct sst_run_config each = config;
        each.hash = run % 2;
        size_t len = 0;
        sort(given[run], counts[run]);
        uint32_t status = sst_run_write(given[run], counts[run], cuts, counts[run] > 1, &each, texts[run], CAP, &len, &runs[run].handles);
        if (status) printf("a run: %s\n", sst_error_name(status));
        runs[run].bytes = texts[run], runs[run].len = len;
    }
}

/* Does a read at a snapshot see the entry at an index: is it the first of its key that is strictly below? */
static int is_read(const struct sst_entry *all, size_t at, uint64_t snapshot) {
    if (all[at].seqno >= snapshot) return 0;
    for (size_t i = 0; i < at; i++)
        if (all[i].key[0] == all[at].key[0] && all[i].seqno < snapshot) return 0;
    return 1;
}

/* Does one of the reads that are kept see it? Those at the snapshots, and those at or above all of them. */
static int is_kept(const struct sst_entry *all, size_t at, const struct how *how) {
    uint64_t most = 0;
    for (size_t i = 0; i < how->snapshot_count; i++) {
        if (is_read(all, at, how->snapshots[i])) return 1;
        if (how->snapshots[i] > most) most = how->snapshots[i];
    }
    return all[at].seqno >= most;
}

/* Does it go because it is a tombstone at the bottom that some snapshot sees? Then no entry of its key is under it
   that a snapshot sees and not the tombstone. */
static int goes(const struct sst_entry *all, size_t count, size_t at, const struct how *how) {
    int seen = 0, needed = 0;
    for (size_t i = 0; i < how->snapshot_count; i++) seen |= all[at].seqno < how->snapshots[i];
    for (size_t d = at + 1; d < count; d++)
        for (size_t i = 0; i < how->snapshot_count; i++)
            needed |= all[d].key[0] == all[at].key[0] && all[d].seqno < how->snapshots[i] && how->snapshots[i] <= all[at].seqno;
    return how->is_bottom && (all[at].value_type == SST_TOMBSTONE || all[at].value_type == SST_WEAK_TOMBSTONE) && seen && !needed;
}

/* The entries that have to stay, and how many. */
static size_t staying(struct sst_entry *left, const struct how *how) {
    static struct sst_entry all[RUNS * MOST];
    size_t count = 0, stay = 0;
    for (int run = 0; run < RUNS; run++)
        for (size_t i = 0; i < counts[run]; i++)
            if ((!how->from || given[run][i].key[0] >= how->from[0]) && (!how->to || given[run][i].key[0] < how->to[0]))
                all[count++] = given[run][i];
    sort(all, count);
    for (size_t i = 0; i < count; i++)
        if (is_kept(all, i, how) && !goes(all, count, i, how)) left[stay++] = all[i];
    return stay;
}

static uint32_t compact(const struct how *how, const struct sst_run_config *by, uint8_t *out, size_t cap, size_t *len, struct sst_run_handles *handles) {
    static const uint8_t none[1];
    return sst_compact(runs, RUNS, how->from != 0, how->from ? (const uint8_t *)how->from : none, how->from != 0, how->to != 0,
                       how->to ? (const uint8_t *)how->to : none, how->to != 0, how->snapshots, how->snapshot_count, how->is_bottom,
                       how->block_size, by, out, cap, len, handles);
}

/* Compacts, and says whether that does what it has to, with both hash functions: with a buffer of one byte less, and with
   one that is as long as that says. A block size of 1 has a block for each entry, a large one a single block. */
static int is_right(const struct how *how) {
    static struct sst_entry left[RUNS * MOST];
    static uint8_t out[CAP], wanted[CAP];
    size_t cuts[RUNS * MOST], stay = staying(left, how);
    for (size_t i = 0; i + 1 < stay; i++) cuts[i] = i + 1;
    for (uint16_t hash = 0; hash < 2; hash++) {
        struct sst_run_config by = config;
        by.hash = hash;
        size_t wanted_len = 0, len = LEFT, needed = LEFT;
        struct sst_run_handles wanted_handles, handles;
        struct sst_summary summary;
        memset(&handles, LEFT, sizeof handles), memset(out, LEFT, sizeof out);
        struct sst_run_handles untouched = handles;
        uint32_t status = compact(how, &by, out, 0, &needed, &handles);
        if (out[0] != LEFT || memcmp(&handles, &untouched, sizeof handles) != 0) return 0;
        if (stay == 0) {
            if (status != SST_NOT_FOUND || needed != LEFT) return 0;
            continue;
        }
        if (sst_run_write(left, stay, cuts, how->block_size == 1 ? stay - 1 : 0, &by, wanted, CAP, &wanted_len, &wanted_handles)) return 0;
        if (status != SST_NO_ROOM || needed != wanted_len) return 0;
        if (compact(how, &by, out, needed - 1, &len, &handles) != SST_NO_ROOM || len != needed || out[0] != LEFT) return 0;
        if (compact(how, &by, out, needed, &len, &handles) != SST_OK || len != needed || out[needed] != LEFT) return 0;
        if (memcmp(out, wanted, len) != 0 || memcmp(&handles, &wanted_handles, sizeof handles) != 0) return 0;
        if (sst_run_check(out, len, &handles, hash, &summary) || summary.entries != stay) return 0;
    }
    return 1;
}

/* Compacts, and prints what stays: a tombstone with a minus. */
static void show(const char *name, const struct how *how) {
    static uint8_t out[CAP];
    static struct sst_place places[RUNS * MOST];
    size_t len = 0, count = 0;
    struct sst_run_handles handles;
    struct sst_window window;
    uint32_t status = compact(how, &config, out, CAP, &len, &handles);
    printf("%s: %s, %s:", name, sst_error_name(status), is_right(how) ? "right" : "WRONG");
    if (status == SST_OK) {
        sst_run_range(out, len, &handles, 0, out, 0, 0, out, 0, &window);
        printf(" %zu %s,", window.end_block + 1, window.end_block ? "blocks" : "block");
        sst_run_scan(out, len, &handles, &window, 0, 0, 0, places, RUNS * MOST, &count);
    }
    for (size_t i = 0; i < count; i++)
        printf(" %.*s%.*s%llu%s", (int)places[i].prefix_len, out + places[i].prefix_offset, (int)places[i].key_len, out + places[i].key_offset,
               (unsigned long long)places[i].seqno, places[i].value_type == SST_VALUE ? "" : "-");
    printf("\n");
}

/* Each argument that can't be taken, and what is left then. */
static void refuse(void) {
    static const struct how how = {.snapshots = {99}, .snapshot_count = 1, .block_size = 4096};
    struct sst_run_config by[] = {config, config, config, config, config};
    by[0].den = 0, by[1].restart_interval = 0, by[2].index_interval = 0, by[3].hash = 2, by[4].hash = 65535;
    struct sst_run_handles handles, untouched;
    memset(&handles, LEFT, sizeof handles), memset(&untouched, LEFT, sizeof untouched);
    uint8_t out[2] = {LEFT, LEFT};
    size_t len = LEFT;
    for (size_t i = 0; i < sizeof by / sizeof *by; i++) printf("%s, ", sst_error_name(compact(&how, &by[i], out, 2, &len, &handles)));
    printf("%s\n", len == LEFT && out[0] == LEFT && memcmp(&handles, &untouched, sizeof handles) == 0 ? "all left" : "WRITTEN");
    static const uint8_t none[1];
    uint32_t status = sst_compact(runs, 0, 0, none, 0, 0, none, 0, how.snapshots, 1, 0, 4096, &config, out, 2, &len, &handles);
    printf("no run: %s\n", sst_error_name(status));
}

/* Runs of numbers that a generator gives, by some snapshots, bottoms and ranges: how many of them come out right. */
static void try_many(int times) {
    uint32_t state = 7;
    int right = 0;
    size_t none = 0, stay = 0;
#define NEXT(n) (state = state * 1664525u + 1013904223u, (int)(state >> 16) % (n))
    for (int i = 0; i < times; i++) {
        static const uint8_t types[] = {SST_VALUE, SST_VALUE, SST_TOMBSTONE, SST_WEAK_TOMBSTONE, SST_INDIRECTION};
        for (int run = 0; run < RUNS; run++) {
            counts[run] = 0;
            for (int n = 1 + NEXT(10); n > 0; n--) {
                int key = NEXT(5), seqno = NEXT(12), type = NEXT(5);
                add(run, key, (uint64_t)seqno, types[type]);
            }
        }
        write_runs();
        struct how how = {0};
        how.snapshot_count = (size_t)NEXT(5);
        for (size_t s = 0; s < how.snapshot_count; s++) how.snapshots[s] = (uint64_t)NEXT(14);
        how.is_bottom = (uint8_t)(NEXT(2) * 3);
        how.block_size = NEXT(2) ? 1 : 4096;
        if (NEXT(2)) how.from = names[NEXT(5)];
        if (NEXT(2)) how.to = names[NEXT(5)];
        static struct sst_entry left[RUNS * MOST];
        size_t count = staying(left, &how);
        stay += count, none += count == 0;
        right += is_right(&how);
    }
    printf("of %d compactions right %d; %zu entries stay, none in %zu\n", times, right, stay, none);
}

int main(void) {
    add(0, 0, 9, SST_VALUE), add(0, 1, 8, SST_TOMBSTONE), add(0, 3, 7, SST_VALUE);
    add(1, 0, 6, SST_VALUE), add(1, 0, 5, SST_TOMBSTONE), add(1, 1, 4, SST_VALUE), add(1, 2, 6, SST_TOMBSTONE);
    add(2, 0, 2, SST_VALUE), add(2, 1, 1, SST_VALUE), add(2, 2, 3, SST_VALUE), add(2, 3, 7, SST_VALUE), add(2, 4, 2, SST_WEAK_TOMBSTONE);
    write_runs();
    show("no snapshot", &(struct how){.block_size = 4096});
    show("a block for each", &(struct how){.block_size = 1});
    show("at 99", &(struct how){.snapshots = {99}, .snapshot_count = 1, .block_size = 4096});
    show("at 99, bottom", &(struct how){.snapshots = {99}, .snapshot_count = 1, .block_size = 4096, .is_bottom = 1});
    show("at 99 and 5, bottom", &(struct how){.snapshots = {5, 99}, .snapshot_count = 2, .block_size = 4096, .is_bottom = 1});
    show("at 3 and 7", &(struct how){.snapshots = {7, 3}, .snapshot_count = 2, .block_size = 1});
    show("from b", &(struct how){.from = "b", .snapshots = {99}, .snapshot_count = 1, .block_size = 4096});
    show("up to c", &(struct how){.to = "c", .snapshots = {99}, .snapshot_count = 1, .block_size = 4096});
    show("from b up to d", &(struct how){.from = "b", .to = "d", .snapshots = {8}, .snapshot_count = 1, .block_size = 4096});
    show("from d up to b", &(struct how){.from = "d", .to = "b", .block_size = 4096});
    show("e, bottom", &(struct how){.from = "e", .snapshots = {3}, .snapshot_count = 1, .block_size = 4096, .is_bottom = 255});
    refuse();
    try_many(400);
    return 0;
}
