#include "filters.h"

#include "library.h"
#include "timing.h"

namespace bench {

using leveldb::Slice;

namespace {

const uint8_t* BytesOf(const std::string& text) {
  return reinterpret_cast<const uint8_t*>(text.data());
}

}  // namespace

LibraryFilter::LibraryFilter(const std::string& keys, size_t key_len)
    : keys_(keys), key_len_(key_len), payload_(Build(1), '\0') {
  sst_filter_build(BytesOf(keys_), keys_.size(), key_len_, kBitsPerKey, 1,
                   reinterpret_cast<uint8_t*>(&payload_[0]), payload_.size());
}

uint64_t LibraryFilter::Build(uint64_t times) const {
  return sst_filter_build(BytesOf(keys_), keys_.size(), key_len_, kBitsPerKey, times, nullptr, 0);
}

uint64_t LibraryFilter::Contains(const std::string& needles, uint64_t times) const {
  return sst_filter_contains(BytesOf(payload_), payload_.size(), times, BytesOf(needles),
                             needles.size(), key_len_);
}

LevelFilter::LevelFilter(const std::string& keys, size_t key_len)
    : keys_(keys), key_len_(key_len), policy_(leveldb::NewBloomFilterPolicy(kBitsPerKey)) {
  for (size_t at = 0; at < keys_.size(); at += key_len) list_.emplace_back(&keys_[at], key_len);
  policy_->CreateFilter(list_.data(), int(list_.size()), &filter_);
}

uint64_t LevelFilter::Build(uint64_t times) const {
  std::string filter;
  for (; times > 0; times--) {
    filter.clear();
    policy_->CreateFilter(list_.data(), int(list_.size()), &filter);
    Keep(filter.data());
  }
  return filter.size();
}

uint64_t LevelFilter::Contains(const std::string& needles, uint64_t times) const {
  uint64_t sum = 0;
  for (; times > 0; times--) {
    for (size_t at = 0; at < needles.size(); at += key_len_) {
      sum += policy_->KeyMayMatch(Slice(&needles[at], key_len_), filter_);
    }
  }
  return sum;
}

}  // namespace bench
