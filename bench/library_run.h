// The library's calls over the run of some entries with keys of 16 bytes and values of 32, in blocks of 4 KiB at
// interval 16, with a filter of ten bits a key; merges and compactions are of the runs of its parts (`PartsOf`).
#pragma once

#include <string>
#include <vector>

#include "inputs.h"
#include "library.h"

namespace bench {

constexpr size_t kKeyLen = 16, kValueLen = 32;
constexpr size_t kPerBlock = 78;
constexpr int kRunInterval = 16;
constexpr uint32_t kRunBits = 10;

inline const uint8_t* At(const std::string& bytes) {
  return reinterpret_cast<const uint8_t*>(bytes.data());
}

class LibraryRun {
 public:
  explicit LibraryRun(const std::vector<Entry>& list) : bytes_(ListBytes(list)), count_(list.size()) {}

  size_t count() const { return count_; }

  uint64_t Write(uint32_t bits, uint64_t times) const {
    return sst_run_write(At(bytes_), bytes_.size(), count_, kPerBlock, kRunInterval, 0, 100, bits, times, nullptr, 0);
  }
  uint64_t Check(uint32_t bits, uint64_t times) const {
    return sst_run_check(At(bytes_), bytes_.size(), count_, kPerBlock, kRunInterval, 0, 100, bits, times);
  }
  // Reads by the run's bytes; by a table that is kept and trusted, as entries, and where they are.
  uint64_t Get(const std::string& needles, uint64_t times) const {
    return sst_run_get(At(bytes_), bytes_.size(), count_, kPerBlock, kRunInterval, 0, 100, kRunBits, times,
                       At(needles), needles.size(), kKeyLen);
  }
  uint64_t TableGet(const std::string& needles, uint64_t times) const {
    return sst_table_get(At(bytes_), bytes_.size(), count_, kPerBlock, kRunInterval, 0, 100, kRunBits, times,
                         At(needles), needles.size(), kKeyLen);
  }
  uint64_t Find(const std::string& needles, uint64_t times) const {
    return sst_views_find(At(bytes_), bytes_.size(), count_, kPerBlock, kRunInterval, 0, 100, kRunBits, times,
                          At(needles), needles.size(), kKeyLen);
  }
  // Reads of a table whose blocks are verified and checked: one by one, together, or through a cache of all blocks.
  uint64_t Read(const std::string& needles, uint64_t times) const {
    return sst_table_read(At(bytes_), bytes_.size(), count_, kPerBlock, times, At(needles), needles.size(), kKeyLen);
  }
  uint64_t ReadMany(const std::string& needles, uint64_t times) const {
    return sst_table_read_many(At(bytes_), bytes_.size(), count_, kPerBlock, times, At(needles), needles.size(),
                               kKeyLen);
  }
  uint64_t ReadCached(const std::string& needles, uint64_t times) const {
    return sst_table_read_cached(At(bytes_), bytes_.size(), count_, kPerBlock, times, At(needles), needles.size(),
                                 kKeyLen);
  }
  // Hashes and checks, or walks over, the blocks alone.
  uint64_t CheckBlocks(uint64_t times) const {
    return sst_blocks_check(At(bytes_), bytes_.size(), count_, kPerBlock, kRunInterval, 0, 100, times);
  }
  uint64_t WalkBlocks(bool made, uint64_t times) const {
    return sst_blocks_walk(At(bytes_), bytes_.size(), count_, kPerBlock, kRunInterval, 0, 100, made, times);
  }
  // Of a table, whose blocks are verified and checked; or of a trusted run, whose bytes are borrowed.
  uint64_t TableScan(uint64_t times) const {
    return sst_table_scan(At(bytes_), bytes_.size(), count_, kPerBlock, kRunInterval, 0, 100, kRunBits, times);
  }
  uint64_t Scan(bool made, uint64_t times) const {
    return sst_views_scan(At(bytes_), bytes_.size(), count_, kPerBlock, kRunInterval, 0, 100, kRunBits, made, times);
  }
  uint64_t TableMerge(size_t tables, uint64_t times) const {
    return sst_table_merge(At(bytes_), bytes_.size(), count_, kPerBlock, kRunInterval, 0, 100, kRunBits, tables, times);
  }
  uint64_t Merge(size_t tables, bool made, uint64_t times) const {
    return sst_views_merge(At(bytes_), bytes_.size(), count_, kPerBlock, kRunInterval, 0, 100, kRunBits, tables, made,
                           times);
  }
  // Each run is checked and merged as views, or each block as it is reached, and merged as entries (`made`).
  uint64_t Compact(size_t tables, bool made, uint64_t times) const {
    return sst_compact(At(bytes_), bytes_.size(), count_, kPerBlock, kRunInterval, 0, 100, kRunBits, tables, made,
                       times);
  }

 private:
  std::string bytes_;
  size_t count_;
};

}  // namespace bench
