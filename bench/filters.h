// Bloom filters of keys of one length, ten bits a key: the library's and LevelDB's.
#pragma once

#include <cstdint>
#include <memory>
#include <string>
#include <vector>

#include "leveldb/filter_policy.h"
#include "leveldb/slice.h"

namespace bench {

constexpr uint32_t kBitsPerKey = 10;

class LibraryFilter {
 public:
  LibraryFilter(const std::string& keys, size_t key_len);

  // Each repeats its operation; the first returns the length of the filter, the second how many needles it may contain.
  uint64_t Build(uint64_t times) const;
  uint64_t Contains(const std::string& needles, uint64_t times) const;

  const std::string& payload() const { return payload_; }

 private:
  std::string keys_;
  size_t key_len_;
  std::string payload_;
};

class LevelFilter {
 public:
  LevelFilter(const std::string& keys, size_t key_len);

  uint64_t Build(uint64_t times) const;
  uint64_t Contains(const std::string& needles, uint64_t times) const;

 private:
  std::string keys_;
  size_t key_len_;
  std::vector<leveldb::Slice> list_;
  std::unique_ptr<const leveldb::FilterPolicy> policy_;
  std::string filter_;
};

}  // namespace bench
