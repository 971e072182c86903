// The calls of bench/sst_bench. Bytes go in as an address and a length, and are borrowed for the call.
#pragma once

#include <cstddef>
#include <cstdint>

extern "C" {

uint64_t sst_compare(const uint8_t* keys, size_t keys_len, size_t key_len, uint64_t times);
uint64_t sst_shared(const uint8_t* keys, size_t keys_len, size_t key_len, uint64_t times);
uint64_t sst_hash(const uint8_t* keys, size_t keys_len, size_t key_len, uint64_t times);
uint64_t sst_hash128(const uint8_t* bytes, size_t len, uint64_t times);
uint64_t sst_varint(const uint8_t* bytes, size_t len, uint64_t times);

uint64_t sst_encode(const uint8_t* entries, size_t entries_len, size_t count, uint8_t interval,
                    uint32_t num, uint32_t den, uint64_t times, uint8_t* out, size_t out_len);
uint64_t sst_walk(const uint8_t* entries, size_t entries_len, size_t count, uint8_t interval,
                  uint32_t num, uint32_t den, uint64_t times);
uint64_t sst_walk_back(const uint8_t* entries, size_t entries_len, size_t count, uint8_t interval,
                       uint32_t num, uint32_t den, uint64_t times);
uint64_t sst_materialize(const uint8_t* entries, size_t entries_len, size_t count,
                         uint8_t interval, uint32_t num, uint32_t den, uint64_t times);
uint64_t sst_iter(const uint8_t* entries, size_t entries_len, size_t count, uint8_t interval,
                  uint32_t num, uint32_t den, uint64_t times);
uint64_t sst_get(const uint8_t* entries, size_t entries_len, size_t count, uint8_t interval,
                 uint32_t num, uint32_t den, uint64_t times, const uint8_t* needles,
                 size_t needles_len, size_t key_len);
uint64_t sst_get_table(const uint8_t* entries, size_t entries_len, size_t count, uint8_t interval,
                       uint32_t num, uint32_t den, uint64_t times, const uint8_t* needles,
                       size_t needles_len, size_t key_len);
uint64_t sst_seek_next(const uint8_t* entries, size_t entries_len, size_t count,
                       uint8_t interval, uint32_t num, uint32_t den, uint64_t times,
                       const uint8_t* needles, size_t needles_len, size_t key_len);
uint64_t sst_seek_next_table(const uint8_t* entries, size_t entries_len, size_t count,
                             uint8_t interval, uint32_t num, uint32_t den, uint64_t times,
                             const uint8_t* needles, size_t needles_len, size_t key_len);

uint64_t sst_make_table(const uint8_t* entries, size_t entries_len, size_t count, uint8_t interval,
                        uint32_t num, uint32_t den, uint64_t times);

uint64_t sst_check(const uint8_t* payload, size_t payload_len, uint64_t times);

uint64_t sst_index_encode(const uint8_t* handles, size_t handles_len, size_t count,
                          uint8_t interval, uint64_t times, uint8_t* out, size_t out_len);
uint64_t sst_index_walk(const uint8_t* handles, size_t handles_len, size_t count,
                        uint8_t interval, uint64_t times);
uint64_t sst_index_check(const uint8_t* payload, size_t payload_len, uint64_t times);

uint64_t sst_filter_build(const uint8_t* keys, size_t keys_len, size_t key_len, uint32_t bits,
                          uint64_t times, uint8_t* out, size_t out_len);
uint64_t sst_filter_contains(const uint8_t* filter, size_t filter_len, uint64_t times,
                             const uint8_t* needles, size_t needles_len, size_t key_len);

uint64_t sst_frame_write(const uint8_t* payload, size_t payload_len, uint8_t block_type,
                         uint64_t times, uint8_t* out, size_t out_len);
uint64_t sst_frame_read(const uint8_t* frame, size_t frame_len, uint64_t times);
uint64_t sst_run_write(const uint8_t* entries, size_t entries_len, size_t count, size_t per_block,
                       uint8_t interval, uint32_t num, uint32_t den, uint32_t bits, uint64_t times,
                       uint8_t* out, size_t out_len);
uint64_t sst_run_get(const uint8_t* entries, size_t entries_len, size_t count, size_t per_block,
                     uint8_t interval, uint32_t num, uint32_t den, uint32_t bits, uint64_t times,
                     const uint8_t* needles, size_t needles_len, size_t key_len);
uint64_t sst_run_check(const uint8_t* entries, size_t entries_len, size_t count, size_t per_block,
                       uint8_t interval, uint32_t num, uint32_t den, uint32_t bits,
                       uint64_t times);
uint64_t sst_table_get(const uint8_t* entries, size_t entries_len, size_t count, size_t per_block,
                       uint8_t interval, uint32_t num, uint32_t den, uint32_t bits,
                       uint64_t times, const uint8_t* needles, size_t needles_len,
                       size_t key_len);
uint64_t sst_table_read(const uint8_t* entries, size_t entries_len, size_t count, size_t per_block,
                        uint64_t times, const uint8_t* needles, size_t needles_len,
                        size_t key_len);
uint64_t sst_table_read_many(const uint8_t* entries, size_t entries_len, size_t count,
                             size_t per_block, uint64_t times, const uint8_t* needles,
                             size_t needles_len, size_t key_len);
uint64_t sst_table_read_cached(const uint8_t* entries, size_t entries_len, size_t count,
                               size_t per_block, uint64_t times, const uint8_t* needles,
                               size_t needles_len, size_t key_len);
uint64_t sst_table_scan(const uint8_t* entries, size_t entries_len, size_t count,
                        size_t per_block, uint8_t interval, uint32_t num, uint32_t den,
                        uint32_t bits, uint64_t times);
uint64_t sst_table_merge(const uint8_t* entries, size_t entries_len, size_t count,
                         size_t per_block, uint8_t interval, uint32_t num, uint32_t den,
                         uint32_t bits, size_t tables, uint64_t times);
uint64_t sst_compact(const uint8_t* entries, size_t entries_len, size_t count, size_t per_block,
                     uint8_t interval, uint32_t num, uint32_t den, uint32_t bits, size_t tables,
                     uint32_t made, uint64_t times);
uint64_t sst_blocks_walk(const uint8_t* entries, size_t entries_len, size_t count,
                         size_t per_block, uint8_t interval, uint32_t num, uint32_t den,
                         uint32_t made, uint64_t times);
uint64_t sst_blocks_check(const uint8_t* entries, size_t entries_len, size_t count,
                          size_t per_block, uint8_t interval, uint32_t num, uint32_t den,
                          uint64_t times);
uint64_t sst_views_find(const uint8_t* entries, size_t entries_len, size_t count, size_t per_block,
                        uint8_t interval, uint32_t num, uint32_t den, uint32_t bits,
                        uint64_t times, const uint8_t* needles, size_t needles_len,
                        size_t key_len);
uint64_t sst_views_scan(const uint8_t* entries, size_t entries_len, size_t count, size_t per_block,
                        uint8_t interval, uint32_t num, uint32_t den, uint32_t bits,
                        uint32_t made, uint64_t times);
uint64_t sst_views_merge(const uint8_t* entries, size_t entries_len, size_t count,
                         size_t per_block, uint8_t interval, uint32_t num, uint32_t den,
                         uint32_t bits, size_t tables, uint32_t made, uint64_t times);

}  // extern "C"

namespace bench {

// What a call answers that does not take its input.
constexpr uint64_t kRefused = UINT64_MAX;

}  // namespace bench
