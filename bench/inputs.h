// The inputs: entries, keys that are there and keys that are not, and varints, from a fixed generator.
//
// Entries, seed 1: distances of even numbers from 2 to 131072, sequence numbers modulo 2^20, values of
// repeated bytes; keys of 16 bytes are `tbl1` and twelve hex digits, of 32 `tenant/0007/obj/` and sixteen.
// Needles: 1024 keys that are there, seed 2, and 1024 that are not, seed 3. Blocks: keys of 16 and 32
// bytes, values of 0, 32 and 128, intervals 1, 4 and 16, as many entries as 4, 16 or 64 KiB hold; the quick
// form takes eight of these 54. Filters: of 1000 and of 100,000 keys.
#pragma once

#include <cstddef>
#include <cstdint>
#include <string>
#include <vector>

namespace bench {

// splitmix64
class Generator {
 public:
  explicit Generator(uint64_t seed) : state_(seed) {}
  uint64_t Next();

 private:
  uint64_t state_;
};

struct Entry {
  std::string key;
  std::string value;
  uint64_t seqno;
};

// How keys begin: all alike, or so that the first eight bytes tell most of them apart.
enum class Start { kShared, kSpread };

// What one data block is made of.
struct BlockShape {
  size_t key_len;
  size_t value_len;
  size_t kib;
  int interval;
  Start start = Start::kShared;

  size_t Count() const { return kib * 1024 / (key_len + value_len + 4); }
  std::string Name() const;
};

// Entries in order, and keys of the same length that are among them or between them.
struct Entries {
  std::vector<Entry> list;
  std::string hits;    // keys that are there, concatenated
  std::string misses;  // keys that are not
  size_t key_len;

  Entries(size_t count, size_t key_len, size_t value_len, Start start = Start::kShared);
  std::string Bytes() const;  // as the library's calls take them
  std::string Keys() const;   // the keys alone, concatenated
};

std::string ListBytes(const std::vector<Entry>& list);

// What each of so many tables holds of a list: the library's calls part it in the same way, by sequence numbers.
std::vector<std::vector<Entry>> PartsOf(const std::vector<Entry>& list, size_t tables);

constexpr size_t kNeedles = 1024;

// How long the varints are.
enum class Lengths { kOne, kThree, kMixed };

std::string Varints(Lengths lengths, size_t count);

std::vector<BlockShape> QuickBlocks();
std::vector<BlockShape> AllBlocks();
std::vector<BlockShape> SpreadBlocks();  // searches alone are timed in these

}  // namespace bench
