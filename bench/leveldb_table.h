// LevelDB through its public headers: a table of one data block, written and read in memory.
#pragma once

#include <memory>
#include <string>
#include <vector>

#include "inputs.h"
#include "leveldb/cache.h"
#include "leveldb/env.h"
#include "leveldb/iterator.h"
#include "leveldb/options.h"
#include "leveldb/table.h"

namespace bench {

// Ends the process with LevelDB's message where it failed.
void Demand(const leveldb::Status& status);

// A file in memory that is written from its start.
class MemoryFile : public leveldb::WritableFile {
 public:
  leveldb::Status Append(const leveldb::Slice& bytes) override;
  leveldb::Status Close() override { return leveldb::Status::OK(); }
  leveldb::Status Flush() override { return leveldb::Status::OK(); }
  leveldb::Status Sync() override { return leveldb::Status::OK(); }

  std::string bytes;
};

// The same bytes, read at an offset, as a file that is mapped into memory is: nothing is copied.
class MappedFile : public leveldb::RandomAccessFile {
 public:
  explicit MappedFile(const std::string* bytes) : bytes_(bytes) {}
  leveldb::Status Read(uint64_t offset, size_t n, leveldb::Slice* result,
                       char* scratch) const override;

 private:
  const std::string* bytes_;
};

class LevelTable {
 public:
  LevelTable(const Entries& entries, int interval);

  // Each repeats its operation, and returns a sum of what it read or the length of what it wrote.
  uint64_t Encode(uint64_t times);
  uint64_t Walk(uint64_t times) const;
  // Walks over all keys and values from the back.
  uint64_t WalkBack(uint64_t times) const;
  uint64_t Materialize(uint64_t times) const;
  uint64_t First(uint64_t times) const;
  uint64_t Get(const std::string& needles, uint64_t times) const;
  // Makes an iterator for each needle, seeks it, and takes one key.
  uint64_t SeekNext(const std::string& needles, uint64_t times) const;

  // The entries that a walk gives, and for each needle whether it is found with its own value.
  std::vector<std::pair<std::string, std::string>> Walked() const;
  std::vector<bool> Found(const std::string& needles) const;

 private:
  std::unique_ptr<leveldb::Iterator> Iter() const;

  const Entries& entries_;
  leveldb::Options options_;
  MemoryFile written_;
  MemoryFile file_;
  std::unique_ptr<MappedFile> mapped_;
  std::unique_ptr<leveldb::Table> table_;
};

// How many keys LevelDB's comparator puts before the next one.
uint64_t LevelCompare(const std::string& keys, size_t key_len, uint64_t times);

}  // namespace bench
