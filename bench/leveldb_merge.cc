#include "leveldb_merge.h"

#include "leveldb/comparator.h"
#include "leveldb/table_builder.h"

namespace leveldb {
// Of LevelDB's own header table/merger.h.
Iterator* NewMergingIterator(const Comparator* comparator, Iterator** children, int n);
}  // namespace leveldb

namespace bench {

LevelMerge::LevelMerge(const std::vector<Entry>& list, size_t tables)
    : policy_(leveldb::NewBloomFilterPolicy(10)) {
  options_.compression = leveldb::kNoCompression;
  options_.filter_policy = policy_.get();
  for (const std::vector<Entry>& part : PartsOf(list, tables)) {
    auto source = std::make_unique<Source>();
    leveldb::TableBuilder builder(options_, &source->file);
    for (const Entry& entry : part) builder.Add(entry.key, entry.value);
    Demand(builder.Finish());
    source->mapped = std::make_unique<MappedFile>(&source->file.bytes);
    leveldb::Table* table = nullptr;
    Demand(leveldb::Table::Open(options_, source->mapped.get(), source->file.bytes.size(), &table));
    source->table.reset(table);
    sources_.push_back(std::move(source));
  }
}

std::unique_ptr<leveldb::Iterator> LevelMerge::Merged(bool is_verified) const {
  leveldb::ReadOptions reading;
  reading.verify_checksums = is_verified;
  reading.fill_cache = false;
  std::vector<leveldb::Iterator*> children;
  for (const auto& source : sources_) children.push_back(source->table->NewIterator(reading));
  return std::unique_ptr<leveldb::Iterator>(
      leveldb::NewMergingIterator(leveldb::BytewiseComparator(), children.data(), int(children.size())));
}

uint64_t LevelMerge::Walk(bool is_verified, uint64_t times) const {
  uint64_t sum = 0;
  for (; times > 0; times--) {
    auto merged = Merged(is_verified);
    for (merged->SeekToFirst(); merged->Valid(); merged->Next()) sum += merged->key().size() + merged->value().size();
    Demand(merged->status());
  }
  return sum;
}

uint64_t LevelMerge::Compact(uint64_t times) const {
  uint64_t len = 0;
  for (; times > 0; times--) {
    auto merged = Merged(true);
    MemoryFile file;
    leveldb::TableBuilder builder(options_, &file);
    for (merged->SeekToFirst(); merged->Valid(); merged->Next()) builder.Add(merged->key(), merged->value());
    Demand(merged->status());
    Demand(builder.Finish());
    len += file.bytes.size();
  }
  return len;
}

}  // namespace bench
