/* Merges runs by batches, also for snapshots, and compares what it gets with the entries that were written. */
#include "sst.h"
#include <stdio.h>
#include <stdlib.h>
#include <string.h>

#define RUNS 4
#define COUNT 120   /* entries of a run */
#define ALL 1000    /* no bound of sequence numbers */
static char keys[RUNS][COUNT][8];
static struct sst_entry entries[RUNS][COUNT];
static const size_t cuts[] = {1, 30, 31, 77};
static struct sst_run runs[RUNS];
static const uint64_t zero; /* no snapshots are behind it */
static int failures;

static void expect(int is, const char *what) {
    if (!is) printf("failed: %s\n", what);
    failures += !is;
}

/* Two versions of each key. Runs share keys, and runs 1 and 2 have equal entries with values of their own. */
static int make_run(size_t r) {
    struct sst_run_config config = {0, 1, 10, 16, 3, r == 1 ? SST_POLY31 : SST_XXH3};
    static const size_t steps[RUNS] = {3, 2, 2, 7};
    for (size_t i = 0; i < COUNT; i++) {
        snprintf(keys[r][i], sizeof keys[r][i], "k%05zu", i / 2 * steps[r]);
        uint64_t seqno = (r == 0 ? 8 : r == 3 ? 2 : 5) - i % 2;
        entries[r][i] = (struct sst_entry){(const uint8_t *)keys[r][i], 6, (const uint8_t *)&"0123"[r], 1, seqno,
                                           i % 5 == 0 ? SST_TOMBSTONE : SST_VALUE};
    }
    uint8_t none = 0, *bytes = NULL;
    size_t len = 0;
    struct sst_run_handles handles;
    sst_run_write(entries[r], COUNT, cuts, 4, &config, &none, 0, &len, &handles);
    bytes = malloc(len);
    if (bytes == NULL || sst_run_write(entries[r], COUNT, cuts, 4, &config, bytes, len, &len, &handles) != SST_OK) return 0;
    runs[r] = (struct sst_run){bytes, len, handles};
    return 1;
}

/* Whether a place in a run is that of the entry at an index. A tombstone has no value. */
static int is_at(const struct sst_merged *at, size_t r, size_t i) {
    const uint8_t *bytes = runs[r].bytes;
    const struct sst_place *p = &at->place;
    const struct sst_entry *e = &entries[r][i];
    size_t value_len = e->value_type == SST_TOMBSTONE ? 0 : 1;
    return at->run == r && p->seqno == e->seqno && p->value_type == e->value_type && p->prefix_len + p->key_len == 6 &&
           memcmp(bytes + p->prefix_offset, keys[r][i], p->prefix_len) == 0 &&
           memcmp(bytes + p->key_offset, keys[r][i] + p->prefix_len, p->key_len) == 0 && p->value_len == value_len &&
           memcmp(bytes + p->value_offset, e->value, value_len) == 0;
}

static void ranges(const char *from, const char *to, struct sst_window *windows) {
    for (size_t r = 0; r < RUNS; r++)
        sst_run_range(runs[r].bytes, runs[r].len, &runs[r].handles, from != NULL, (const uint8_t *)(from ? from : ""),
                      from ? strlen(from) : 0, to != NULL, (const uint8_t *)(to ? to : ""), to ? strlen(to) : 0,
                      &windows[r]);
}

/* Snapshots of a merge. */
struct snapshots {
    uint64_t numbers[3];
    size_t count;
};

/* Whether some snapshot sees the second entry, which comes after the first, and each that does the first too. */
static int is_hidden(const struct snapshots *s, const struct sst_entry *first, const struct sst_entry *second) {
    int seen = 0, parted = 0;
    for (size_t i = 0; i < s->count; i++) {
        int sees = second->seqno < s->numbers[i];
        seen |= sees;
        parted |= sees && s->numbers[i] <= first->seqno;
    }
    return seen && !parted && memcmp(first->key, second->key, 6) == 0;
}

/* The runs and the indexes of the entries of a range, in their order. */
static size_t in_order(const char *from, const char *to, size_t (*found)[2]) {
    size_t at[RUNS] = {0}, count = 0;
    for (;;) {
        size_t least = RUNS;
        for (size_t r = 0; r < RUNS; r++) {
            if (at[r] == COUNT) continue;
            if (least == RUNS) {
                least = r;
                continue;
            }
            int order = strcmp(keys[r][at[r]], keys[least][at[least]]);
            if (order < 0 || (order == 0 && entries[r][at[r]].seqno > entries[least][at[least]].seqno)) least = r;
        }
        if (least == RUNS) return count;
        size_t i = at[least]++;
        const char *key = keys[least][i];
        if ((from == NULL || strcmp(key, from) >= 0) && (to == NULL || strcmp(key, to) < 0)) {
            found[count][0] = least;
            found[count++][1] = i;
        }
    }
}

/* Those of them that are below a number and that no entry before them hides. */
static size_t wanted(const char *from, const char *to, uint64_t below, const struct snapshots *s, size_t (*found)[2]) {
    static size_t all[RUNS * COUNT][2];
    size_t total = in_order(from, to, all), count = 0;
    for (size_t i = 0; i < total; i++) {
        const struct sst_entry *e = &entries[all[i][0]][all[i][1]];
        int hidden = 0;
        for (size_t j = 0; j < i; j++) hidden |= is_hidden(s, &entries[all[j][0]][all[j][1]], e);
        if (hidden || (below != ALL && e->seqno >= below)) continue;
        found[count][0] = all[i][0];
        found[count++][1] = all[i][1];
    }
    return count;
}

/* Merges a range in batches of so many entries, which are these. */
static void merge(const char *from, const char *to, uint64_t below, const struct snapshots *s, size_t cap,
                  size_t (*found)[2], size_t all) {
    static struct sst_merged merged[RUNS * COUNT + 2];
    size_t at = 0;
    struct sst_window windows[RUNS];
    ranges(from, to, windows);
    for (;;) {
        size_t count = 77, due = all - at < cap ? all - at : cap;
        merged[cap].run = 99;
        uint32_t status = sst_merge_scan(runs, RUNS, windows, RUNS, below != ALL, below, s->numbers, s->count, merged, cap, &count);
        if (status != SST_OK || count != due) {
            expect(0, "a batch has as many entries as there is room for");
            return;
        }
        expect(merged[cap].run == 99, "what is behind is left");
        for (size_t i = 0; i < count; i++, at++)
            expect(is_at(&merged[i], found[at][0], found[at][1]), "a place is that of the next entry");
        if (count < cap) break;
    }
    expect(at == all, "each entry is listed once");
    for (size_t r = 0; r < RUNS; r++)
        expect(windows[r].first_block == windows[r].end_block && windows[r].first_index == windows[r].end_index,
               "nothing is left");
}

/* What windows are taken for of which the last has these numbers. */
static void window(size_t count, size_t first_block, size_t first_index, size_t end_block, size_t end_index) {
    struct sst_window windows[RUNS + 1], old[RUNS + 1];
    ranges(NULL, NULL, windows);
    windows[RUNS] = windows[RUNS - 1];
    windows[count - 1] = (struct sst_window){first_block, first_index, end_block, end_index};
    memcpy(old, windows, sizeof old);
    struct sst_merged merged = {.run = 5};
    size_t listed = 7;
    uint32_t status = sst_merge_scan(runs, RUNS, windows, count, 0, 0, &zero, 0, &merged, 1, &listed);
    int left = memcmp(windows, old, sizeof old) == 0 && merged.run == 5 && listed == 7;
    printf("%zu windows, %zu %zu to %zu %zu: %s%s\n", count, first_block, first_index, end_block, end_index,
           sst_error_name(status), status == SST_OK ? "" : left ? ", all left" : ", something written");
}

int main(void) {
    for (size_t r = 0; r < RUNS; r++)
        if (!make_run(r)) return 1;
    static const char *const bounds[][2] = {{NULL, NULL}, {"k00006", NULL}, {NULL, "k00006"}, {"k00021", "k00130"}, {"k00050", "k00050"}, {"z", NULL}};
    static const size_t caps[] = {1, 2, 7, 64, RUNS * COUNT, RUNS * COUNT + 1};
    static const uint64_t belows[] = {ALL, 8, 5, 1, 0};
    static const struct snapshots snapshots[] = {{{0}, 0}, {{9}, 1}, {{5}, 1}, {{8, 5}, 2}, {{2, 5, 6}, 3}};
    static size_t found[RUNS * COUNT][2];
    size_t merges = 0;
    for (size_t b = 0; b < sizeof bounds / sizeof *bounds; b++)
        for (size_t w = 0; w < sizeof belows / sizeof *belows; w++)
            for (size_t s = 0; s < sizeof snapshots / sizeof *snapshots; s++) {
                const char *from = bounds[b][0], *to = bounds[b][1];
                size_t all = wanted(from, to, belows[w], &snapshots[s], found);
                for (size_t c = 0; c < sizeof caps / sizeof *caps; c++, merges++)
                    merge(from, to, belows[w], &snapshots[s], caps[c], found, all);
            }
    size_t all = wanted(NULL, NULL, ALL, &snapshots[0], found), some = wanted(NULL, NULL, ALL, &snapshots[4], found);
    printf("%zu entries, %zu for snapshots at 2, 5 and 6\n", all, some);
    struct sst_window windows[RUNS];
    struct sst_merged merged;
    size_t count = 7;
    ranges(NULL, NULL, windows);
    printf("no room: %s, ", sst_error_name(sst_merge_scan(runs, RUNS, windows, RUNS, 0, 0, &zero, 0, &merged, 0, &count)));
    printf("%zu, at %zu %zu\n", count, windows[0].first_block, windows[0].first_index);
    printf("no runs: %s, ", sst_error_name(sst_merge_scan(runs, 0, windows, 0, 0, 0, &zero, 0, &merged, 1, &count)));
    printf("%zu\n", count);
    window(RUNS, 0, 0, 4, 43);
    window(RUNS, 0, 1, 1, 0);
    window(RUNS, 0, 0, 4, 44);
    window(RUNS, 1, 0, 0, 1);
    window(RUNS, 0, 0, 5, 0);
    window(RUNS - 1, 0, 0, 4, 43);
    window(RUNS + 1, 0, 0, 4, 43);
    for (size_t r = 0; r < RUNS; r++) free((void *)runs[r].bytes);
    printf("%zu merges, %d failures\n", merges, failures);
    return failures != 0;
}
