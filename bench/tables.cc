// Prints what reads, scans, merges, compactions and the check of a table in memory cost beside their parts, and beside
// LevelDB's.
#include <algorithm>
#include <cstdio>
#include <cstdlib>
#include <string>
#include <vector>

#include "inputs.h"
#include "leveldb_merge.h"
#include "library_run.h"
#include "timing.h"

namespace {

using namespace bench;

constexpr size_t kCount = 100000;
constexpr size_t kTables = 8;
constexpr size_t kMany = 1000;

void Must(uint64_t answer, const char* name) {
  if (answer != kRefused) return;
  fprintf(stderr, "tables: %s: refused\n", name);
  exit(1);
}

void Same(bool holds, const char* name) {
  if (holds) return;
  fprintf(stderr, "tables: %s: the answers differ\n", name);
  exit(1);
}

void Print(const char* name, size_t operations, const Repeated& ours, const Repeated& other) {
  Must(ours(1), name);
  Must(other(1), name);
  const Times times = TimesOf({name, operations, ours, other}, {0.05, 9});
  printf("| %s | %.1f | %.1f | %.2f |\n", name, times.ours, times.other, times.ratio);
}

void PrintReads(const Entries& entries, const LibraryRun& run) {
  for (bool hits : {true, false}) {
    const std::string& needles = hits ? entries.hits : entries.misses;
    Print(hits ? "get of a key that is there in a trusted table, beside read_entry" : "get of a key that is not",
          kNeedles, [&](uint64_t times) { return run.TableGet(needles, times); },
          [&](uint64_t times) { return run.Get(needles, times); });
  }
  Print("find of a key that is there in a trusted table, beside read_entry", kNeedles,
        [&](uint64_t times) { return run.Find(entries.hits, times); },
        [&](uint64_t times) { return run.Get(entries.hits, times); });
}

// So many of the needles, in order.
std::string InOrder(const std::string& needles, size_t count) {
  std::vector<std::string> keys;
  for (size_t i = 0; i < count; ++i) keys.push_back(needles.substr(i * kKeyLen % needles.size(), kKeyLen));
  std::sort(keys.begin(), keys.end());
  std::string all;
  for (const std::string& key : keys) all += key;
  return all;
}

// Reads of a table whose blocks are verified and checked.
void PrintCheckedReads(const Entries& entries, const LibraryRun& run) {
  Print("get through a cache that keeps the block, beside a trusted table", kNeedles,
        [&](uint64_t times) { return run.ReadCached(entries.hits, times); },
        [&](uint64_t times) { return run.TableGet(entries.hits, times); });
  const std::string spread = InOrder(entries.hits, kMany);
  const std::string next = entries.Keys().substr(0, kMany * kKeyLen);
  for (const std::string& keys : {spread, next}) {
    Same(run.ReadMany(keys, 1) == run.Read(keys, 1) && run.ReadCached(keys, 1) == run.Read(keys, 1), "reads");
    Print(keys == next ? "get_many of 1,000 keys that follow each other, a key, beside get of each"
                       : "get_many of 1,000 keys in order from all of the table, a key, beside get of each",
          kMany, [&](uint64_t times) { return run.ReadMany(keys, times); },
          [&](uint64_t times) { return run.Read(keys, times); });
  }
}

// The payload of the filter of keys of 16 bytes.
std::string FilterOf(const std::string& keys) {
  std::string payload(22 + (keys.size() / kKeyLen * kRunBits + 7) / 8 + 8, '\0');
  const uint64_t len = sst_filter_build(At(keys), keys.size(), kKeyLen, kRunBits, 1,
                                        reinterpret_cast<uint8_t*>(payload.data()), payload.size());
  Must(len, "filter");
  payload.resize(len);
  return payload;
}

void PrintChecks(const Entries& entries, const LibraryRun& run) {
  // The filter is checked by a question for each key.
  const std::string keys = entries.Keys();
  const std::string filter = FilterOf(keys);
  const Repeated checks = [&](uint64_t times) { return run.CheckBlocks(times); };
  const Repeated whole = [&](uint64_t times) { return run.Check(kRunBits, times); };
  Print("check of the run, an entry, beside its frames, checks and questions to the filter", kCount, whole,
        [&](uint64_t times) {
          return checks(times) + sst_filter_contains(At(filter), filter.size(), times, At(keys), keys.size(), kKeyLen);
        });
  Print("check of the run, an entry, beside the frames and checks", kCount, whole, checks);
  Print("check of the run without a filter, an entry, beside the frames and checks", kCount,
        [&](uint64_t times) { return run.Check(0, times); }, checks);
}

void PrintScans(const LibraryRun& run) {
  Print("scan, an entry, beside frames, checks and walks that make entries", kCount,
        [&](uint64_t times) { return run.TableScan(times); },
        [&](uint64_t times) { return run.CheckBlocks(times) + run.WalkBlocks(true, times); });
  for (bool made : {false, true}) {
    Print(made ? "scan of borrowed bytes that makes entries, beside the walks that make entries"
               : "scan of borrowed bytes, an entry, beside the walks over borrowed bytes",
          kCount, [&, made](uint64_t times) { return run.Scan(made, times); },
          [&, made](uint64_t times) { return run.WalkBlocks(made, times); });
  }
}

// The sum of a call over each part.
template <class Call>
Repeated OfEach(const std::vector<LibraryRun>& parts, Call call) {
  return [&parts, call](uint64_t times) {
    uint64_t sum = 0;
    for (const LibraryRun& part : parts) sum += call(part, times);
    return sum;
  };
}

void PrintMerges(const std::vector<LibraryRun>& parts, const LibraryRun& run) {
  const auto walks = [&](bool made) {
    return OfEach(parts, [made](const LibraryRun& part, uint64_t times) { return part.WalkBlocks(made, times); });
  };
  const Repeated merge = [&](uint64_t times) { return run.TableMerge(kTables, times); };
  Print("merge of 8 scans, an entry, beside their own", kCount, merge,
        OfEach(parts, [](const LibraryRun& part, uint64_t times) { return part.TableScan(times); }));
  Print("merge of 8 scans, an entry, beside the walks that make entries", kCount, merge, walks(true));
  for (bool made : {false, true}) {
    const Repeated views = [&, made](uint64_t times) { return run.Merge(kTables, made, times); };
    Print(made ? "merge of 8 scans of borrowed bytes that makes entries, beside the walks that do"
               : "merge of 8 scans of borrowed bytes, beside the walks over borrowed bytes",
          kCount, views, walks(made));
    Print(made ? "merge of 8 scans of borrowed bytes that makes entries, beside their own"
               : "merge of 8 scans of borrowed bytes, beside their own",
          kCount, views,
          OfEach(parts, [made](const LibraryRun& part, uint64_t times) { return part.Scan(made, times); }));
  }
}

void PrintCompactions(const LibraryRun& run, const LevelMerge& other) {
  const Repeated level = [&](uint64_t times) { return other.Compact(times); };
  for (bool made : {false, true}) {
    Print(made ? "compaction of 8 tables by entries, beside LevelDB's, verified"
               : "compaction of 8 tables by views, beside LevelDB's, verified",
          kCount, [&, made](uint64_t times) { return run.Compact(kTables, made, times); }, level);
  }
  for (bool is_verified : {true, false}) {
    Print(is_verified ? "merge of 8 scans, an entry, beside LevelDB's, verified"
                      : "merge of 8 scans of borrowed bytes, beside LevelDB's, nothing verified",
          kCount,
          [&, is_verified](uint64_t times) {
            return is_verified ? run.TableMerge(kTables, times) : run.Merge(kTables, false, times);
          },
          [&, is_verified](uint64_t times) { return other.Walk(is_verified, times); });
  }
}

// Scans and merges give the same entries, LevelDB's merge as many; both compactions write the same table.
void Compare(const LibraryRun& run, const LevelMerge& other) {
  const uint64_t sum = run.Scan(false, 1);
  Same(run.Scan(true, 1) == sum && run.TableScan(1) == sum && run.WalkBlocks(false, 1) == sum, "scan");
  Same(run.Merge(kTables, false, 1) == sum && run.TableMerge(kTables, 1) == sum, "merge");
  Same(other.Walk(true, 1) == kCount * (kKeyLen + kValueLen), "merge of LevelDB");
  Same(run.Compact(kTables, false, 1) == run.Compact(kTables, true, 1), "compaction");
}

}  // namespace

int main() {
  PinToCore(-1);
  const Entries entries(kCount, kKeyLen, kValueLen);
  const LibraryRun run(entries.list);
  std::vector<LibraryRun> parts;
  for (const std::vector<Entry>& part : PartsOf(entries.list, kTables)) parts.emplace_back(part);
  printf("| Table of %zu entries in %zu blocks | ns | Beside it, ns | Ratio |\n|---|---|---|---|\n", kCount,
         (kCount + kPerBlock - 1) / kPerBlock);
  const LevelMerge other(entries.list, kTables);
  Compare(run, other);
  PrintReads(entries, run);
  PrintCheckedReads(entries, run);
  PrintChecks(entries, run);
  PrintScans(run);
  PrintMerges(parts, run);
  PrintCompactions(run, other);
  return 0;
}
