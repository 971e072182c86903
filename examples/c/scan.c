/* Scans a run by batches from both ends, over windows of ranges, and compares what it gets with the entries
   that were written. */
#include "sst.h"
#include <stdio.h>
#include <stdlib.h>
#include <string.h>

#define COUNT 300
#define ALL 1000 /* no bound of sequence numbers */
static char keys[COUNT][16];
static struct sst_entry entries[COUNT];
static const size_t cuts[] = {1, 40, 56, 57, 200};
static struct sst_run_config config = {0, 1, 10, 16, 3, SST_XXH3};
static uint8_t *run;
static size_t len;
static struct sst_run_handles handles;
static int failures;

static void expect(int is, const char *what) {
    if (!is) printf("failed: %s\n", what);
    failures += !is;
}

/* Three versions of each key, one at the greatest number. */
static int make_run(void) {
    for (int i = 0; i < COUNT; i++) {
        snprintf(keys[i], sizeof keys[i], "k%05d", i / 3 * 2);
        entries[i] = (struct sst_entry){(const uint8_t *)keys[i], 6, (const uint8_t *)keys[i], 6,
                                        i == 3 ? UINT64_MAX : (uint64_t)(7 - i % 3 * 2), i % 5 == 0 ? SST_TOMBSTONE : SST_VALUE};
    }
    sst_run_write(entries, COUNT, cuts, 5, &config, NULL == run ? (uint8_t *)keys : run, 0, &len, &handles);
    run = malloc(len);
    return run != NULL && sst_run_write(entries, COUNT, cuts, 5, &config, run, len, &len, &handles) == SST_OK;
}

/* Whether a place in bytes is that of the entry at an index. A tombstone has no value. */
static int is_at(const uint8_t *bytes, const struct sst_place *at, size_t i) {
    size_t value_len = entries[i].value_type == SST_TOMBSTONE ? 0 : 6;
    return at->seqno == entries[i].seqno && at->value_type == entries[i].value_type &&
           at->prefix_len + at->key_len == 6 && memcmp(bytes + at->prefix_offset, keys[i], at->prefix_len) == 0 &&
           memcmp(bytes + at->key_offset, keys[i] + at->prefix_len, at->key_len) == 0 &&
           at->value_len == value_len && memcmp(bytes + at->value_offset, keys[i], value_len) == 0;
}

static uint32_t next(struct sst_window *window, uint64_t below, int reverse, struct sst_place *places,
                     size_t cap, size_t *count) {
    return sst_run_scan(run, len, &handles, window, below != ALL, below, (uint8_t)reverse, places, cap, count);
}

static struct sst_window range(const char *from, const char *to) {
    struct sst_window window = {9, 9, 9, 9};
    sst_run_range(run, len, &handles, from != NULL, (const uint8_t *)(from ? from : ""), from ? strlen(from) : 0,
                  to != NULL, (const uint8_t *)(to ? to : ""), to ? strlen(to) : 0, &window);
    return window;
}

/* The indexes of the entries of a range that are below a number. */
static size_t wanted(const char *from, const char *to, uint64_t below, size_t *indexes) {
    size_t count = 0;
    for (size_t i = 0; i < COUNT; i++)
        if ((from == NULL || strcmp(keys[i], from) >= 0) && (to == NULL || strcmp(keys[i], to) < 0) &&
            (below == ALL || entries[i].seqno < below))
            indexes[count++] = i;
    return count;
}

/* Scans a range in batches: from the front (0), from the back (1), or in turn (2). */
static void scan(const char *from, const char *to, uint64_t below, int ends, size_t cap) {
    static struct sst_place places[65];
    size_t indexes[COUNT], lo = 0, hi = wanted(from, to, below, indexes), turn = 0;
    struct sst_window window = range(from, to);
    for (;;) {
        int reverse = ends == 2 ? (int)(turn++ % 2) : ends;
        size_t count = 77, due = hi - lo < cap ? hi - lo : cap;
        places[cap].seqno = 99;
        if (next(&window, below, reverse, places, cap, &count) != SST_OK || count != due) {
            expect(0, "a batch has as many entries as there is room for");
            return;
        }
        expect(places[cap].seqno == 99, "the places behind are left");
        if (count == 0) break;
        for (size_t i = 0; i < count; i++)
            expect(is_at(run, &places[i], indexes[reverse ? --hi : lo++]), "a place is that of the next entry");
    }
    expect(lo == hi, "each entry is listed once");
}

/* What a window of these numbers is taken for. */
static void window(size_t first_block, size_t first_index, size_t end_block, size_t end_index) {
    struct sst_window window = {first_block, first_index, end_block, end_index}, old = window;
    struct sst_place place = {.seqno = 5};
    size_t count = 7;
    uint32_t status = next(&window, ALL, 0, &place, 1, &count);
    int left = memcmp(&window, &old, sizeof window) == 0 && place.seqno == 5 && count == 7;
    printf("window %zu %zu to %zu %zu: %s%s\n", first_block, first_index, end_block, end_index,
           sst_error_name(status), status == SST_OK ? "" : left ? ", all left" : ", something written");
}

/* Scans a data block from both ends in turn, and refuses windows that it does not have. */
static void scan_block(void) {
    static uint8_t block[16384];
    static struct sst_place places[7];
    size_t block_len = 0, count = 0, lo = 0, hi = COUNT;
    if (sst_data_block_encode(entries, COUNT, 16, 0, 1, SST_XXH3, block, sizeof block, &block_len) != SST_OK) return;
    struct sst_window window = {0, 0, 0, COUNT};
    for (size_t turn = 0; lo < hi; turn++) {
        uint8_t reverse = turn % 2;
        size_t cap = 1 + turn % 7, due = hi - lo < cap ? hi - lo : cap;
        uint32_t status = sst_data_block_scan(block, block_len, &window, 0, 0, reverse, places, cap, &count);
        expect(status == SST_OK && count == due, "a batch of a block");
        for (size_t i = 0; i < due; i++) expect(is_at(block, &places[i], reverse ? --hi : lo++), "the next of a block");
    }
    printf("a block: %zu to %zu; ", window.first_index, window.end_index);
    const struct sst_window wrong[] = {{0, 0, 0, COUNT + 1}, {0, 2, 0, 1}, {0, 0, 1, 0}, {1, 0, 1, 0}};
    for (size_t i = 0; i < 4; i++) {
        window = wrong[i];
        printf("%s, ", sst_error_name(sst_data_block_scan(block, block_len, &window, 0, 0, 0, places, 1, &count)));
    }
    window = (struct sst_window){0, 0, 0, COUNT};
    printf("%s", sst_error_name(sst_data_block_scan(block, block_len, &window, 1, 0, 0, places, 1, &count)));
    printf(" %zu\n", count);
}

/* Lists the entries of a block with keys in a range, of which there are as many as in the run. */
static void scan_block_range(const uint8_t *block, size_t block_len, const char *from, const char *to) {
    static struct sst_place places[COUNT];
    struct sst_window window = {9, 9, 9, 9};
    size_t indexes[COUNT], due = wanted(from, to, ALL, indexes), count = 0;
    sst_data_block_range(block, block_len, from != NULL, (const uint8_t *)(from ? from : ""), from ? strlen(from) : 0,
                         to != NULL, (const uint8_t *)(to ? to : ""), to ? strlen(to) : 0, &window);
    expect(window.first_block == 0 && window.end_block == 0, "a window of one block");
    if (sst_data_block_scan(block, block_len, &window, 0, 0, 0, places, COUNT, &count) != SST_OK || count != due) {
        expect(0, "a range of a block has its entries");
        return;
    }
    for (size_t i = 0; i < count; i++) expect(is_at(block, &places[i], indexes[i]), "a place of a range of a block");
}

int main(void) {
    if (!make_run()) return 1;
    static const char *const bounds[][2] = {{NULL, NULL},         {"k00006", NULL},     {NULL, "k00006"},
                                            {"k00026", "k00130"}, {"k00027", "k00131"}, {"k00050", "k00050"},
                                            {"k00100", "k00050"}, {"z", NULL},          {NULL, "a"},
                                            {"a", "z"},           {"z", "a"}};
    static const size_t caps[] = {1, 2, 5, 16, 64};
    static const uint64_t belows[] = {ALL, UINT64_MAX, 7, 4, 0};
    size_t scans = 0;
    for (size_t b = 0; b < sizeof bounds / sizeof *bounds; b++)
        for (size_t c = 0; c < sizeof caps / sizeof *caps; c++)
            for (size_t s = 0; s < sizeof belows / sizeof *belows; s++)
                for (int ends = 0; ends < 3; ends++, scans++) scan(bounds[b][0], bounds[b][1], belows[s], ends, caps[c]);
    struct sst_window w = range(NULL, NULL);
    printf("the run: %zu %zu to %zu %zu\n", w.first_block, w.first_index, w.end_block, w.end_index);
    w = range("k00026", "k00130");
    printf("k00026 to k00130: %zu %zu to %zu %zu\n", w.first_block, w.first_index, w.end_block, w.end_index);
    struct sst_place none;
    size_t count = 7;
    printf("no places: %s, ", sst_error_name(next(&w, ALL, 0, &none, 0, &count)));
    printf("%zu\n", count);
    window(0, 0, 5, 100);
    window(0, 1, 1, 0);
    window(1, 0, 0, 1);
    window(2, 16, 3, 1);
    window(2, 17, 3, 1);
    window(0, 0, 5, 101);
    window(0, 0, 6, 0);
    window(6, 0, 6, 0);
    window(4, 8, 4, 7);
    window(SIZE_MAX, 0, SIZE_MAX, 0);
    window(0, SIZE_MAX, 5, 0);
    scan_block();
    static uint8_t block[16384];
    size_t block_len = 0;
    if (sst_data_block_encode(entries, COUNT, 16, 1, 1, SST_POLY31, block, sizeof block, &block_len) != SST_OK) return 1;
    for (size_t b = 0; b < sizeof bounds / sizeof *bounds; b++, scans++)
        scan_block_range(block, block_len, bounds[b][0], bounds[b][1]);
    free(run);
    printf("%zu scans, %d failures\n", scans, failures);
    return failures != 0;
}
