// LevelDB's merge of tables in memory, through their iterators.
#pragma once

#include <cstdint>
#include <memory>
#include <string>
#include <vector>

#include "inputs.h"
#include "leveldb/filter_policy.h"
#include "leveldb/iterator.h"
#include "leveldb/options.h"
#include "leveldb/table.h"
#include "leveldb_table.h"

namespace bench {

// A table of each part of some entries, in blocks of 4 KiB at interval 16, with a filter of ten bits a key.
class LevelMerge {
 public:
  LevelMerge(const std::vector<Entry>& list, size_t tables);

  // Goes over the merged entries, and returns a sum of their lengths.
  uint64_t Walk(bool is_verified, uint64_t times) const;
  // Writes them into one table in memory, each checksum verified, and returns its length for each time.
  uint64_t Compact(uint64_t times) const;

 private:
  struct Source {
    MemoryFile file;
    std::unique_ptr<MappedFile> mapped;
    std::unique_ptr<leveldb::Table> table;
  };

  std::unique_ptr<leveldb::Iterator> Merged(bool is_verified) const;

  std::unique_ptr<const leveldb::FilterPolicy> policy_;
  leveldb::Options options_;
  std::vector<std::unique_ptr<Source>> sources_;
};

}  // namespace bench
