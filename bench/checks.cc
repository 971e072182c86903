// Prints what a check of a block costs beside the forward walk of the same block, at interval 16.
#include <algorithm>
#include <cstdio>
#include <cstdlib>
#include <string>
#include <vector>

#include "inputs.h"
#include "library.h"
#include "timing.h"

namespace {

using namespace bench;

constexpr int kInterval = 16;

const uint8_t* At(const std::string& bytes) {
  return reinterpret_cast<const uint8_t*>(bytes.data());
}

// A block: its entries or handles as the library's calls take them, and its payload.
struct Input {
  std::string name;
  size_t count;
  std::string bytes;
  std::string payload;
};

void Must(bool holds, const Input& input) {
  if (holds) return;
  fprintf(stderr, "checks: %s: refused\n", input.name.c_str());
  exit(1);
}

// The numerator of the hash ratio of a data block; the denominator is 100.
Input DataInput(const std::string& name, const Entries& entries, uint32_t buckets) {
  Input input{name, entries.list.size(), entries.Bytes(), ""};
  std::string out(4 * input.bytes.size() + 1000, '\0');
  uint8_t* to = reinterpret_cast<uint8_t*>(out.data());
  uint64_t len = sst_encode(At(input.bytes), input.bytes.size(), input.count, kInterval, buckets,
                            100, 1, to, out.size());
  Must(len != kRefused && len <= out.size(), input);
  input.payload = out.substr(0, len);
  return input;
}

void PutNumber(std::string* bytes, uint64_t number, int width) {
  for (int i = 0; i < width; i++) *bytes += char(number >> (8 * i));
}

// Handles of blocks of 4000 to 4299 bytes, one behind the other, of which the keys are the last.
Input IndexInput(size_t count, size_t key_len) {
  const Entries entries(count, key_len, 0);
  Input input{"k" + std::to_string(key_len) + "." + std::to_string(count), count, "", ""};
  Generator sizes(5);
  uint64_t offset = 0;
  for (const Entry& entry : entries.list) {
    uint64_t size = 4000 + sizes.Next() % 300;
    PutNumber(&input.bytes, offset, 8);
    PutNumber(&input.bytes, size, 4);
    PutNumber(&input.bytes, entry.seqno, 8);
    PutNumber(&input.bytes, entry.key.size(), 2);
    input.bytes += entry.key;
    offset += size;
  }
  std::string out(4 * input.bytes.size() + 1000, '\0');
  uint8_t* to = reinterpret_cast<uint8_t*>(out.data());
  uint64_t len = sst_index_encode(At(input.bytes), input.bytes.size(), count, kInterval, 1, to,
                                  out.size());
  Must(len != kRefused && len <= out.size(), input);
  input.payload = out.substr(0, len);
  return input;
}

struct Worst {
  double least = 1e9;
  double most = 0;
};

// Prints a line, of medians, and takes the ratio's bounds along.
void Print(const Input& input, const Repeated& check, const Repeated& walk, Worst* worst) {
  Must(check(1) == input.count && walk(1) != kRefused, input);
  const Times times = TimesOf({input.name, input.count, check, walk}, {0.002, 41});
  const double ratio = times.ours / times.other;
  worst->least = std::min(worst->least, ratio);
  worst->most = std::max(worst->most, ratio);
  printf("| %s | %zu | %.1f | %.1f | %.2f |\n", input.name.c_str(), input.count, times.ours,
         times.other, ratio);
}

void PrintHead(const char* title) {
  printf("\n| %s | Items | Check, ns | Walk, ns | Ratio |\n|---|---|---|---|---|\n", title);
}

void PrintData(const Input& input, uint32_t buckets, Worst* worst) {
  const Repeated check = [&](uint64_t times) {
    return sst_check(At(input.payload), input.payload.size(), times);
  };
  const Repeated walk = [&](uint64_t times) {
    return sst_walk(At(input.bytes), input.bytes.size(), input.count, kInterval, buckets, 100,
                    times);
  };
  Print(input, check, walk, worst);
}

void PrintIndex(const Input& input, Worst* worst) {
  const Repeated check = [&](uint64_t times) {
    return sst_index_check(At(input.payload), input.payload.size(), times);
  };
  const Repeated walk = [&](uint64_t times) {
    return sst_index_walk(At(input.bytes), input.bytes.size(), input.count, kInterval, times);
  };
  Print(input, check, walk, worst);
}

void PrintDataBlocks(uint32_t buckets, const char* title) {
  PrintHead(title);
  Worst worst;
  for (const BlockShape& shape : AllBlocks()) {
    if (shape.interval != kInterval) continue;
    const Entries entries(shape.Count(), shape.key_len, shape.value_len);
    PrintData(DataInput(shape.Name(), entries, buckets), buckets, &worst);
  }
  printf("\n%s: %.2f to %.2f\n", title, worst.least, worst.most);
}

// Blocks of so few entries that what a check costs once shows.
void PrintSmallDataBlocks(uint32_t buckets, const char* title) {
  PrintHead(title);
  for (size_t count : {1, 2, 5, 10, 16, 20, 30}) {
    Worst worst;
    PrintData(DataInput("k16.v32", Entries(count, 16, 32), buckets), buckets, &worst);
  }
}

void PrintIndexBlocks(const char* title, const std::vector<size_t>& counts) {
  PrintHead(title);
  Worst worst;
  for (size_t key_len : {16, 32}) {
    for (size_t count : counts) PrintIndex(IndexInput(count, key_len), &worst);
  }
  printf("\n%s: %.2f to %.2f\n", title, worst.least, worst.most);
}

}  // namespace

int main() {
  PinToCore(-1);
  PrintDataBlocks(0, "Data blocks without buckets");
  PrintDataBlocks(133, "Data blocks with 133 buckets for 100 entries");
  PrintIndexBlocks("Index blocks", {64, 256, 1000, 4096});
  PrintSmallDataBlocks(0, "Small data blocks without buckets");
  PrintSmallDataBlocks(133, "Small data blocks with 133 buckets for 100 entries");
  PrintIndexBlocks("Small index blocks", {1, 2, 5, 10, 16, 20, 30});
  return 0;
}
