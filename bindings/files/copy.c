/* copy IN OUT: maps the table file IN, which `sst pack` wrote, checks it, finds each of its entries, and writes them as
   the table file OUT, by XXH3. */
#include <fcntl.h>
#include <stdio.h>
#include <stdlib.h>
#include <string.h>
#include <sys/mman.h>
#include <sys/stat.h>
#include <unistd.h>
#include "sst.h"

#define DEMAND(holds) \
    do { \
        if (!(holds)) { \
            fprintf(stderr, "copy.c:%d: not so: %s\n", __LINE__, #holds); \
            exit(1); \
        } \
    } while (0)

enum { FOOTER = 24, MOST = 1000 };

static struct sst_place places[MOST];
static struct sst_entry entries[MOST];
static uint8_t keys[MOST][65535];

/* The entry at a place of a run, with its key in room. */
static struct sst_entry entry_at(const uint8_t *run, const struct sst_place *place, uint8_t *room) {
    memcpy(room, run + place->prefix_offset, place->prefix_len);
    memcpy(room + place->prefix_len, run + place->key_offset, place->key_len);
    return (struct sst_entry){room, place->prefix_len + place->key_len, run + place->value_offset, place->value_len,
                              place->seqno, place->value_type};
}

int main(int argc, char **argv) {
    DEMAND(argc == 3);
    int file = open(argv[1], O_RDONLY);
    struct stat about;
    DEMAND(file >= 0 && fstat(file, &about) == 0);
    size_t len = (size_t)about.st_size;
    const uint8_t *run = mmap(NULL, len, PROT_READ, MAP_PRIVATE, file, 0);
    DEMAND(run != MAP_FAILED);

    struct sst_run_handles handles, written;
    struct sst_summary summary;
    DEMAND(sst_footer_read(run, len, &handles) == SST_OK);
    len -= FOOTER;
    DEMAND(sst_run_check(run, len, &handles, SST_POLY31, &summary) == SST_OK && summary.entries <= MOST);

    struct sst_window window;
    size_t count;
    const uint8_t none = 0;
    sst_run_range(run, len, &handles, 0, &none, 0, 0, &none, 0, &window);
    DEMAND(sst_run_scan(run, len, &handles, &window, 0, 0, 0, places, MOST, &count) == SST_OK);
    DEMAND(count == summary.entries);
    for (size_t i = 0; i < count; i++) {
        struct sst_place found;
        entries[i] = entry_at(run, &places[i], keys[i]);
        DEMAND(sst_run_get(run, len, &handles, SST_POLY31, entries[i].key, entries[i].key_len, entries[i].seqno + 1,
                           &found) == SST_OK);
        DEMAND(memcmp(&found, &places[i], sizeof found) == 0);
    }

    const struct sst_run_config config = {0, 1, 10, 16, 1, SST_XXH3};
    size_t cuts[MOST], cut_count = 0, room = 2 * len + 4096, out_len, footer_len;
    for (size_t i = 16; i < count; i += 16) cuts[cut_count++] = i;
    uint8_t *out = malloc(room);
    DEMAND(out != NULL);
    DEMAND(sst_run_write(entries, count, cuts, cut_count, &config, out, room - FOOTER, &out_len, &written) == SST_OK);
    DEMAND(sst_footer_write(&written, out + out_len, FOOTER, &footer_len) == SST_OK);
    FILE *to = fopen(argv[2], "wb");
    DEMAND(to != NULL && fwrite(out, 1, out_len + footer_len, to) == out_len + footer_len && fclose(to) == 0);
    free(out);
    return 0;
}
