// Plain readings that the library's answers are compared with: a data block by docs/FORMAT.md, and naive loops.
#pragma once

#include <cstdint>
#include <string>
#include <vector>

#include "inputs.h"

namespace bench {

// An item of a data block, and what the library adds for it.
struct Item {
  std::string key;
  std::string value;
  uint64_t seqno;
  uint64_t sum;
};

// All items of a data block without a hash index, or false where the bytes are no such block.
bool ItemsIn(const std::string& payload, int interval, std::vector<Item>* items);

// The entry with a key.
const Entry* EntryOf(const std::vector<Entry>& entries, const std::string& key);

uint64_t PlainShared(const std::string& keys, size_t key_len);
uint64_t PlainHash(const std::string& keys, size_t key_len);
uint64_t PlainVarints(const std::string& varints);

// The filter of keys of one length at some bits a key, and how many needles it may contain.
std::string PlainFilter(const std::string& keys, size_t key_len, uint64_t bits);
uint64_t PlainContained(const std::string& filter, const std::string& needles, size_t key_len);

}  // namespace bench
