#include "leveldb_table.h"

#include <cstdio>
#include <cstdlib>

#include "leveldb/comparator.h"
#include "leveldb/filter_policy.h"
#include "leveldb/table_builder.h"
#include "timing.h"

namespace bench {

using leveldb::Slice;
using leveldb::Status;

Status MemoryFile::Append(const Slice& more) {
  bytes.append(more.data(), more.size());
  return Status::OK();
}

Status MappedFile::Read(uint64_t offset, size_t n, Slice* result, char*) const {
  if (offset > bytes_->size() || n > bytes_->size() - offset) {
    return Status::IOError("beyond the end");
  }
  *result = Slice(bytes_->data() + offset, n);
  return Status::OK();
}

void Demand(const Status& status) {
  if (status.ok()) return;
  fprintf(stderr, "leveldb: %s\n", status.ToString().c_str());
  exit(1);
}

namespace {

// No compression, no filter, and a block that takes all entries.
leveldb::Options OneBlock(int interval) {
  leveldb::Options options;
  options.compression = leveldb::kNoCompression;
  options.block_size = size_t{1} << 30;
  options.block_restart_interval = interval;
  return options;
}

void WriteTable(const leveldb::Options& options, const Entries& entries, MemoryFile* file) {
  file->bytes.clear();
  leveldb::TableBuilder builder(options, file);
  for (const Entry& entry : entries.list) builder.Add(entry.key, entry.value);
  Demand(builder.Finish());
}

}  // namespace

LevelTable::LevelTable(const Entries& entries, int interval)
    : entries_(entries), options_(OneBlock(interval)) {
  WriteTable(options_, entries, &file_);
  mapped_ = std::make_unique<MappedFile>(&file_.bytes);
  leveldb::Table* table = nullptr;
  Demand(leveldb::Table::Open(options_, mapped_.get(), file_.bytes.size(), &table));
  table_.reset(table);
}

std::unique_ptr<leveldb::Iterator> LevelTable::Iter() const {
  return std::unique_ptr<leveldb::Iterator>(table_->NewIterator(leveldb::ReadOptions()));
}

uint64_t LevelTable::Encode(uint64_t times) {
  for (; times > 0; times--) {
    WriteTable(options_, entries_, &written_);
    Keep(written_.bytes.data());
  }
  return written_.bytes.size();
}

uint64_t LevelTable::Walk(uint64_t times) const {
  uint64_t sum = 0;
  for (; times > 0; times--) {
    auto iter = Iter();
    for (iter->SeekToFirst(); iter->Valid(); iter->Next()) {
      sum += iter->key().size() + iter->value().size();
    }
  }
  return sum;
}

uint64_t LevelTable::WalkBack(uint64_t times) const {
  uint64_t sum = 0;
  for (; times > 0; times--) {
    auto iter = Iter();
    for (iter->SeekToLast(); iter->Valid(); iter->Prev()) {
      sum += iter->key().size() + iter->value().size();
    }
  }
  return sum;
}

uint64_t LevelTable::Materialize(uint64_t times) const {
  uint64_t sum = 0;
  for (; times > 0; times--) {
    auto iter = Iter();
    for (iter->SeekToFirst(); iter->Valid(); iter->Next()) {
      std::string key = iter->key().ToString();
      std::string value = iter->value().ToString();
      Keep(key.data());
      Keep(value.data());
      sum += key.size() + value.size();
    }
  }
  return sum;
}

uint64_t LevelTable::First(uint64_t times) const {
  uint64_t sum = 0;
  for (; times > 0; times--) {
    auto iter = Iter();
    iter->SeekToFirst();
    sum += iter->key().size();
  }
  return sum;
}

uint64_t LevelTable::Get(const std::string& needles, uint64_t times) const {
  uint64_t hits = 0;
  auto iter = Iter();
  for (; times > 0; times--) {
    for (size_t at = 0; at < needles.size(); at += entries_.key_len) {
      Slice needle(needles.data() + at, entries_.key_len);
      iter->Seek(needle);
      if (!iter->Valid() || iter->key() != needle) continue;
      std::string key = iter->key().ToString();
      std::string value = iter->value().ToString();
      Keep(key.data());
      Keep(value.data());
      hits++;
    }
  }
  return hits;
}

uint64_t LevelTable::SeekNext(const std::string& needles, uint64_t times) const {
  uint64_t sum = 0;
  for (; times > 0; times--) {
    for (size_t at = 0; at < needles.size(); at += entries_.key_len) {
      auto iter = Iter();
      iter->Seek(Slice(needles.data() + at, entries_.key_len));
      sum += iter->key().size();
    }
  }
  return sum;
}

std::vector<std::pair<std::string, std::string>> LevelTable::Walked() const {
  std::vector<std::pair<std::string, std::string>> walked;
  auto iter = Iter();
  for (iter->SeekToFirst(); iter->Valid(); iter->Next()) {
    walked.emplace_back(iter->key().ToString(), iter->value().ToString());
  }
  Demand(iter->status());
  return walked;
}

std::vector<bool> LevelTable::Found(const std::string& needles) const {
  std::vector<bool> found;
  auto iter = Iter();
  for (size_t at = 0; at < needles.size(); at += entries_.key_len) {
    Slice needle(needles.data() + at, entries_.key_len);
    iter->Seek(needle);
    found.push_back(iter->Valid() && iter->key() == needle);
  }
  Demand(iter->status());
  return found;
}

uint64_t LevelCompare(const std::string& keys, size_t key_len, uint64_t times) {
  const leveldb::Comparator* comparator = leveldb::BytewiseComparator();
  uint64_t rising = 0;
  for (; times > 0; times--) {
    for (size_t at = key_len; at < keys.size(); at += key_len) {
      Slice key(keys.data() + at - key_len, key_len), next(keys.data() + at, key_len);
      rising += comparator->Compare(key, next) < 0;
    }
    Keep(rising);
  }
  return rising;
}

}  // namespace bench
