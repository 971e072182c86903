/* Writes a table file entry by entry: the entries of one block are kept, the frame of each full block goes to
   the file, and of the blocks before it a handle and the hashes of the keys are kept. All memory is that of one
   struct. Then reads the file, checks it, and compares it with the run that sst_run_write makes at once. */
#include "sst.h"
#include <stdio.h>
#include <stdlib.h>
#include <string.h>

enum {
    BLOCK_BYTES = 4096,  /* a block ends with the entry with which its keys and values reach this */
    ENTRY_BYTES = 256,   /* of a key and a value, at most */
    BLOCK_ENTRIES = 512, /* in a block, at most */
    BLOCKS = 2000,       /* in the table, at most */
    ENTRIES = 100000,
    KEY_LEN = 13
};

struct writer {
    FILE *file;
    struct sst_run_config config;
    uint64_t len; /* of the frames in the file */
    /* the block that is not full */
    struct sst_entry entries[BLOCK_ENTRIES];
    uint8_t bytes[BLOCK_BYTES + ENTRY_BYTES];
    size_t count, held;
    /* the blocks in the file */
    struct sst_keyed_handle handles[BLOCKS];
    uint8_t end_keys[BLOCKS][ENTRY_BYTES];
    uint64_t hashes[ENTRIES];
    size_t blocks, hash_count;
    uint8_t *out;
    size_t out_cap;
};

/* Ends with a status that is none of those that the program is for. */
static void demand(uint32_t status, const char *what) {
    if (status == SST_OK) return;
    fprintf(stderr, "%s: %s\n", what, sst_error_name(status));
    exit(1);
}

static void make_capacity(struct writer *w, size_t cap) {
    free(w->out);
    w->out = malloc(cap);
    w->out_cap = cap;
    if (w->out == NULL) demand(SST_MEMORY, "the buffer");
}

static void append(struct writer *w, size_t len) {
    if (fwrite(w->out, 1, len, w->file) != len) demand(SST_IO, "the file");
    w->len += len;
}

/* Writes the block that is kept, and keeps its handle and its hashes. */
static void close_block(struct writer *w) {
    uint64_t *hashes = w->hashes + w->hash_count;
    size_t len = 0, hash_cap = ENTRIES - w->hash_count;
    uint32_t status = sst_run_block_write(w->entries, w->count, &w->config, w->out, w->out_cap, &len, hashes, hash_cap);
    if (status == SST_NO_ROOM) {
        make_capacity(w, len);
        status = sst_run_block_write(w->entries, w->count, &w->config, w->out, w->out_cap, &len, hashes, hash_cap);
    }
    demand(w->blocks == BLOCKS ? SST_NO_ROOM : status, "a block");
    const struct sst_entry *last = &w->entries[w->count - 1];
    memcpy(w->end_keys[w->blocks], last->key, last->key_len);
    w->handles[w->blocks] =
        (struct sst_keyed_handle){w->end_keys[w->blocks], last->key_len, last->seqno, w->len, (uint32_t)len};
    w->blocks++;
    w->hash_count += w->count;
    append(w, len);
    w->count = w->held = 0;
}

static void add(struct writer *w, const char *key, uint64_t seqno, const char *value, size_t value_len) {
    if (w->count == BLOCK_ENTRIES || w->held >= BLOCK_BYTES) close_block(w);
    uint8_t *at = w->bytes + w->held;
    memcpy(at, key, KEY_LEN);
    memcpy(at + KEY_LEN, value, value_len);
    w->entries[w->count++] = (struct sst_entry){at, KEY_LEN, at + KEY_LEN, value_len, seqno, SST_VALUE};
    w->held += KEY_LEN + value_len;
}

/* Writes index, filter and footer. */
static void finish(struct writer *w) {
    struct sst_run_handles run;
    size_t len = 0;
    close_block(w);
    uint32_t status = sst_run_end_write(w->handles, w->blocks, w->hashes, w->hash_count, &w->config, w->out,
                                        w->out_cap, &len, &run);
    printf("the end into %zu bytes: %s, %zu\n", w->out_cap, sst_error_name(status), len);
    make_capacity(w, len);
    demand(sst_run_end_write(w->handles, w->blocks, w->hashes, w->hash_count, &w->config, w->out, w->out_cap, &len, &run),
           "the end");
    append(w, len);
    demand(sst_footer_write(&run, w->out, w->out_cap, &len), "the footer");
    append(w, len);
}

/* The entry at an index: two versions of each key. */
static size_t make_entry(size_t i, char *key, char *value, uint64_t *seqno) {
    snprintf(key, KEY_LEN + 1, "user/%08u", (unsigned)(i / 2) % 100000000);
    memset(value, 'a' + (int)(i % 26), i % 50);
    *seqno = i % 2 ? 3 : 9;
    return i % 50;
}

/* Compares the run with the one that sst_run_write makes of all entries at once, in the same blocks. */
static void compare(const uint8_t *file, size_t len, const struct sst_run_config *config) {
    struct sst_entry *entries = malloc(ENTRIES * sizeof *entries);
    char(*bytes)[64] = malloc(ENTRIES * sizeof *bytes);
    size_t *cuts = malloc(ENTRIES * sizeof *cuts), cut_count = 0, held = 0, first = 0, run_len = 0;
    uint8_t *run = malloc(len);
    struct sst_run_handles handles;
    if (entries == NULL || bytes == NULL || cuts == NULL || run == NULL) demand(SST_MEMORY, "the entries");
    for (size_t i = 0; i < ENTRIES; i++) {
        uint64_t seqno;
        size_t value_len = make_entry(i, bytes[i], bytes[i] + KEY_LEN + 1, &seqno);
        entries[i] = (struct sst_entry){(uint8_t *)bytes[i], KEY_LEN, (uint8_t *)bytes[i] + KEY_LEN + 1, value_len,
                                        seqno, SST_VALUE};
        if (held >= BLOCK_BYTES || i - first == BLOCK_ENTRIES) cuts[cut_count++] = first = i, held = 0;
        held += KEY_LEN + value_len;
    }
    demand(sst_run_write(entries, ENTRIES, cuts, cut_count, config, run, len, &run_len, &handles), "the run");
    printf("at once %zu bytes, %s\n", run_len, run_len + 24 == len && memcmp(run, file, run_len) == 0 ? "the same" : "others");
    free(entries), free(bytes), free(cuts), free(run);
}

/* Reads every entry by its key and its number. */
static void read_all(const uint8_t *file, size_t len, const struct sst_run_handles *handles) {
    size_t found = 0;
    for (size_t i = 0; i < ENTRIES; i++) {
        char key[KEY_LEN + 1], value[50];
        uint64_t seqno;
        struct sst_place at;
        size_t value_len = make_entry(i, key, value, &seqno);
        found += sst_run_get(file, len - 24, handles, SST_XXH3, (uint8_t *)key, KEY_LEN, seqno + 1, &at) == SST_OK &&
                 at.seqno == seqno && at.value_len == value_len && memcmp(file + at.value_offset, value, value_len) == 0;
    }
    printf("of %d entries, read as written: %zu\n", ENTRIES, found);
}

/* Reads the file, checks it, and compares it. */
static void read_table(FILE *file, size_t len, const struct sst_run_config *config) {
    uint8_t *bytes = malloc(len);
    struct sst_run_handles handles;
    struct sst_summary summary;
    if (bytes == NULL) demand(SST_MEMORY, "the file");
    rewind(file);
    if (fread(bytes, 1, len, file) != len) demand(SST_IO, "the file");
    demand(sst_footer_read(bytes, len, &handles), "the footer");
    demand(sst_run_check(bytes, len - 24, &handles, SST_XXH3, &summary), "the check");
    printf("checked: %zu blocks, %llu entries\n", summary.blocks, (unsigned long long)summary.entries);
    read_all(bytes, len, &handles);
    compare(bytes, len, config);
    free(bytes);
}

static void write_table(uint32_t bits_per_key) {
    struct writer *w = calloc(1, sizeof *w);
    if (w == NULL) demand(SST_MEMORY, "the writer");
    w->config = (struct sst_run_config){1, 2, bits_per_key, 16, 2, SST_XXH3};
    w->file = tmpfile();
    if (w->file == NULL) demand(SST_IO, "a file");
    make_capacity(w, 16);
    for (size_t i = 0; i < ENTRIES; i++) {
        char key[KEY_LEN + 1], value[50];
        uint64_t seqno;
        size_t value_len = make_entry(i, key, value, &seqno);
        add(w, key, seqno, value, value_len);
    }
    finish(w);
    printf("%u bits for a key: %zu blocks, %llu bytes\n", bits_per_key, w->blocks, (unsigned long long)w->len);
    read_table(w->file, (size_t)w->len, &w->config);
    fclose(w->file);
    free(w->out);
    free(w);
}

static void end_with(const char *what, const struct sst_keyed_handle *handles, size_t count, size_t hash_count,
                     const struct sst_run_config *config, size_t cap) {
    uint8_t out[512] = {0};
    const uint64_t hashes[2] = {1, 2};
    struct sst_run_handles run = {1, 2, 3, 4};
    size_t len = 7;
    uint32_t status = sst_run_end_write(handles, count, hashes, hash_count, config, out, cap, &len, &run);
    printf("%s: %s, %zu, index %llu %u, filter %llu %u\n", what, sst_error_name(status), len,
           (unsigned long long)run.index_offset, run.index_size, (unsigned long long)run.filter_offset, run.filter_size);
}

/* Ends runs of handles that are no one's, and of such that no run can end with. */
static void use_end(void) {
    struct sst_run_config config = {0, 1, 10, 16, 1, SST_XXH3};
    struct sst_keyed_handle handles[2] = {{(const uint8_t *)"b", 1, 5, 0, 100}, {(const uint8_t *)"d", 1, 3, 100, 50}};
    end_with("two handles", handles, 2, 2, &config, 512);
    end_with("into 16 bytes", handles, 2, 2, &config, 16);
    end_with("no handle", handles, 0, 2, &config, 512);
    end_with("no hash", handles, 2, 0, &config, 512);
    config.bits_per_key = 0;
    end_with("no hash and no filter", handles, 2, 0, &config, 512);
    config.index_interval = 0;
    end_with("an interval of 0", handles, 2, 2, &config, 512);
    config.index_interval = 1, config.den = 0;
    end_with("a denominator of 0", handles, 2, 2, &config, 512);
    config.den = 1;
    end_with("from another offset", handles + 1, 1, 2, &config, 512);
    handles[1].offset = 101;
    end_with("with a gap", handles, 2, 2, &config, 512);
    handles[1].offset = 100, handles[1].end_key = (const uint8_t *)"a";
    end_with("out of order", handles, 2, 2, &config, 512);
}

static void write_with(const char *what, const struct sst_entry *entries, size_t count,
                       const struct sst_run_config *config, size_t cap, size_t hash_cap) {
    uint8_t out[512] = {0};
    uint64_t hashes[3] = {7, 7, 7};
    size_t len = 7;
    uint32_t status = sst_run_block_write(entries, count, config, out, cap, &len, hashes, hash_cap);
    printf("%s: %s, %zu, hashes %016llx %016llx %llu\n", what, sst_error_name(status), len,
           (unsigned long long)hashes[0], (unsigned long long)hashes[1], (unsigned long long)hashes[2]);
}

/* Writes a block of two versions of a key, and what can't be written. */
static void use_block(void) {
    const uint8_t *key = (const uint8_t *)"k", *value = (const uint8_t *)"v";
    struct sst_entry entries[2] = {{key, 1, value, 1, 9, SST_VALUE}, {key, 1, value, 1, 3, SST_VALUE}};
    struct sst_run_config config = {0, 1, 10, 16, 1, SST_XXH3};
    write_with("two entries", entries, 2, &config, 512, 3);
    write_with("into 16 bytes", entries, 2, &config, 16, 3);
    write_with("one hash of two", entries, 2, &config, 512, 1);
    write_with("no entry", entries, 0, &config, 512, 3);
    config.bits_per_key = 0;
    write_with("without a filter", entries, 2, &config, 512, 0);
    config.index_interval = 0;
    write_with("an interval of 0", entries, 2, &config, 512, 3);
    config.index_interval = 1, entries[1].seqno = 10;
    write_with("out of order", entries, 2, &config, 512, 3);
}

int main(void) {
    use_block();
    use_end();
    write_table(10);
    write_table(0);
    return 0;
}
