// Prints what the calls for C cost over bytes that are lent: a search of a data block, the same behind a
// copy of the block, the encoding of entries, an empty call, and a call that only refuses its argument.
#include <cstdio>
#include <cstdlib>
#include <cstring>
#include <string>
#include <vector>

#include "../examples/c/sst.h"
#include "inputs.h"
#include "timing.h"

namespace {

using namespace bench;

constexpr int kInterval = 16;

const uint8_t* At(const std::string& bytes) {
  return reinterpret_cast<const uint8_t*>(bytes.data());
}

double TimeOf(size_t operations, const Repeated& call) {
  return TimesOf({"", operations, call, call}, {0.05, 9}).ours;
}

std::vector<sst_entry> GivenOf(const Entries& entries) {
  std::vector<sst_entry> given;
  for (const Entry& entry : entries.list) {
    given.push_back({At(entry.key), entry.key.size(), At(entry.value), entry.value.size(),
                     entry.seqno, SST_VALUE});
  }
  return given;
}

void Must(uint32_t status, const char* what) {
  if (status == SST_OK) return;
  fprintf(stderr, "calls: %s: %s\n", what, sst_error_name(status));
  exit(1);
}

uint64_t Encode(const std::vector<sst_entry>& given, std::string* out) {
  size_t len = 0;
  Must(sst_data_block_encode(given.data(), given.size(), kInterval, 0, 1, SST_XXH3,
                             reinterpret_cast<uint8_t*>(out->data()), out->size(), &len),
       "encode");
  return len;
}

// Adds where the value of each key is, or 1 for none.
uint64_t Find(const std::string& block, const std::string& needles, size_t key_len, uint64_t times) {
  uint64_t sum = 0;
  for (; times > 0; times--) {
    for (size_t at = 0; at < needles.size(); at += key_len) {
      sst_place place;
      const uint32_t status =
          sst_data_block_find(At(block), block.size(), SST_XXH3, At(needles) + at, key_len, UINT64_MAX, &place);
      sum += status == SST_OK ? place.value_offset : 1;
    }
  }
  return sum;
}

// The same behind a copy of the block for each key.
uint64_t FindInCopy(const std::string& block, const std::string& needles, size_t key_len,
                    uint64_t times) {
  uint64_t sum = 0;
  for (; times > 0; times--) {
    for (size_t at = 0; at < needles.size(); at += key_len) {
      uint8_t* copy = static_cast<uint8_t*>(malloc(block.size()));
      if (copy == nullptr) exit(1);
      memcpy(copy, block.data(), block.size());
      sst_place place;
      const uint32_t status =
          sst_data_block_find(copy, block.size(), SST_XXH3, At(needles) + at, key_len, UINT64_MAX, &place);
      sum += status == SST_OK ? place.value_offset : 1;
      free(copy);
    }
  }
  return sum;
}

// A call that only returns.
uint64_t Empty(uint64_t times) {
  uint64_t sum = 0;
  for (; times > 0; times--) sum += sst_version();
  return sum;
}

// A call that refuses its argument.
uint64_t Refuse(std::string* out, uint64_t times) {
  uint64_t sum = 0;
  for (; times > 0; times--) {
    size_t len = 0;
    sum += sst_frame_write(At(*out), out->size(), 9, SST_XXH3, reinterpret_cast<uint8_t*>(out->data()), 0, &len);
  }
  return sum;
}

void Print(size_t kib) {
  const Entries entries(kib * 1024 / (16 + 32 + 4), 16, 32);
  const std::vector<sst_entry> given = GivenOf(entries);
  std::string block(2 * kib * 1024 + 1000, '\0');
  block.resize(Encode(given, &block));
  std::string out = block;
  const double encode = TimeOf(given.size(), [&](uint64_t times) {
    uint64_t sum = 0;
    for (; times > 0; times--) sum += Encode(given, &out);
    return sum;
  });
  double times[2][2];
  for (int miss = 0; miss < 2; miss++) {
    const std::string& needles = miss ? entries.misses : entries.hits;
    times[0][miss] =
        TimeOf(kNeedles, [&](uint64_t turns) { return Find(block, needles, 16, turns); });
    times[1][miss] =
        TimeOf(kNeedles, [&](uint64_t turns) { return FindInCopy(block, needles, 16, turns); });
  }
  printf("| %zu | %.0f, %.0f | %.0f, %.0f | %.1f |\n", kib, times[0][0], times[0][1], times[1][0],
         times[1][1], encode);
}

}  // namespace

int main() {
  PinToCore(-1);
  printf("| Block, KiB | find: there, not there, ns | behind a copy | encoding, an entry |\n");
  printf("|---|---|---|---|\n");
  Print(4);
  Print(64);
  std::string out(64, '\0');
  const double empty = TimeOf(1, Empty);
  const double refused = TimeOf(1, [&](uint64_t turns) { return Refuse(&out, turns); });
  printf("\nA call that only returns: %.1f ns; one that refuses its argument: %.1f ns\n", empty, refused);
  return 0;
}
