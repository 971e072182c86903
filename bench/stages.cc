// Prints what each stage of a compaction of eight tables in memory costs an entry: by itself, and the whole.
//
// A stage is timed over the blocks and runs that the compaction reads, or over the blocks of what it writes. Where no
// call has a stage alone it is the difference of two calls that were timed in turn.
#include <algorithm>
#include <cstdio>
#include <cstdlib>
#include <string>
#include <vector>

#include "inputs.h"
#include "library_run.h"
#include "timing.h"

namespace {

using namespace bench;

constexpr size_t kCount = 100000;
constexpr size_t kTables = 8;

// The entries of a block as the library's calls take them, and its payload.
struct Cut {
  std::string bytes;
  size_t count;
  std::string payload;

  explicit Cut(const std::vector<Entry>& list) : bytes(ListBytes(list)), count(list.size()) {
    payload.resize(bytes.size() + 1000);
    const uint64_t len = sst_encode(At(bytes), bytes.size(), count, kRunInterval, 0, 100, 1,
                                    reinterpret_cast<uint8_t*>(payload.data()), payload.size());
    if (len > payload.size()) exit(1);
    payload.resize(len);
  }
};

std::vector<Cut> CutsOf(const std::vector<Entry>& list) {
  std::vector<Cut> cuts;
  for (size_t at = 0; at < list.size(); at += kPerBlock) {
    const size_t end = std::min(at + kPerBlock, list.size());
    cuts.emplace_back(std::vector<Entry>(list.begin() + at, list.begin() + end));
  }
  return cuts;
}

// The sum of a call over each of several.
template <class T, class Call>
Repeated OfEach(const std::vector<T>& all, Call call) {
  return [&all, call](uint64_t times) {
    uint64_t sum = 0;
    for (const T& one : all) sum += call(one, times);
    return sum;
  };
}

uint64_t Hash(const Cut& cut, uint64_t times) { return sst_hash128(At(cut.payload), cut.payload.size(), times); }

// What is timed.
enum Timed {
  kHashRead, kCheckBlocks, kCheckRuns, kCheckRunsFilter, kScan, kMerge, kTableScan, kTableMerge,
  kEncode, kFilter, kHashWritten, kFrames, kWrite, kCompactViews, kCompactEntries,
};

// The medians of times, each sample scaled by what the compaction took beside it, since the machine's speed changes.
std::vector<double> TimesAtOneSpeed(const std::vector<Repeated>& calls) {
  const auto samples = SamplesInTurn(calls, kCount, {0.05, 15});
  const std::vector<double>& whole = samples[kCompactViews];
  std::vector<double> times;
  for (std::vector<double> of_call : samples) {
    for (size_t i = 0; i < of_call.size(); i++) of_call[i] *= MedianOf(whole) / whole[i];
    times.push_back(MedianOf(of_call));
  }
  return times;
}

void Print(const char* name, double views, double entries) {
  const auto cell = [](double time) { time == time ? printf(" %.1f |", time) : printf(" - |"); };
  printf("| %s |", name);
  cell(views);
  cell(entries);
  printf("\n");
}

}  // namespace

int main() {
  PinToCore(-1);
  const Entries entries(kCount, kKeyLen, kValueLen);
  const std::string keys = entries.Keys();
  const LibraryRun run(entries.list);
  std::vector<LibraryRun> parts;
  std::vector<Cut> read;
  for (const std::vector<Entry>& part : PartsOf(entries.list, kTables)) {
    parts.emplace_back(part);
    for (const Cut& cut : CutsOf(part)) read.push_back(cut);
  }
  const std::vector<Cut> written = CutsOf(entries.list);
  const std::vector<Repeated> calls = {
      OfEach(read, Hash),
      OfEach(parts, [](const LibraryRun& part, uint64_t times) { return part.CheckBlocks(times); }),
      OfEach(parts, [](const LibraryRun& part, uint64_t times) { return part.Check(0, times); }),
      OfEach(parts, [](const LibraryRun& part, uint64_t times) { return part.Check(kRunBits, times); }),
      OfEach(parts, [](const LibraryRun& part, uint64_t times) { return part.Scan(false, times); }),
      [&](uint64_t times) { return run.Merge(kTables, false, times); },
      OfEach(parts, [](const LibraryRun& part, uint64_t times) { return part.TableScan(times); }),
      [&](uint64_t times) { return run.TableMerge(kTables, times); },
      OfEach(written, [](const Cut& cut, uint64_t times) {
        return sst_encode(At(cut.bytes), cut.bytes.size(), cut.count, kRunInterval, 0, 100, times, nullptr, 0);
      }),
      [&](uint64_t times) { return sst_filter_build(At(keys), keys.size(), kKeyLen, kRunBits, times, nullptr, 0); },
      OfEach(written, Hash),
      OfEach(written, [](const Cut& cut, uint64_t times) {
        return sst_frame_write(At(cut.payload), cut.payload.size(), 0, times, nullptr, 0);
      }),
      [&](uint64_t times) { return run.Write(kRunBits, times); },
      [&](uint64_t times) { return run.Compact(kTables, false, times); },
      [&](uint64_t times) { return run.Compact(kTables, true, times); },
  };
  for (const Repeated& call : calls) {
    if (call(1) == kRefused) return 1;
  }
  const std::vector<double> ns = TimesAtOneSpeed(calls);

  const double none = 0.0 / 0.0;
  double views = 0, made = 0;
  const auto stage = [&](const char* name, double by_views, double by_entries) {
    Print(name, by_views, by_entries);
    if (by_views == by_views) views += by_views;
    if (by_entries == by_entries) made += by_entries;
  };
  const double check = ns[kCheckBlocks] - ns[kHashRead];
  printf("| Compaction of %zu tables of %zu entries, ns an entry | by views | by entries |\n|---|---|---|\n", kTables,
         kCount);
  stage("hash what is read", ns[kHashRead], ns[kHashRead]);
  stage("check blocks", check, check);
  stage("frames, order across blocks, index", ns[kCheckRuns] - ns[kCheckBlocks], none);
  stage("ask the filter", ns[kCheckRunsFilter] - ns[kCheckRuns], none);
  stage("decode", ns[kScan], ns[kTableScan] - ns[kCheckBlocks]);
  stage("compare", ns[kMerge] - ns[kScan], ns[kTableMerge] - ns[kTableScan]);
  stage("encode", ns[kEncode], ns[kEncode]);
  stage("filter", ns[kFilter], ns[kFilter]);
  stage("hash what is written", ns[kHashWritten], ns[kHashWritten]);
  stage("write: headers, bytes appended", ns[kFrames] - ns[kHashWritten], ns[kFrames] - ns[kHashWritten]);
  Print("sum", views, made);
  Print("compaction", ns[kCompactViews], ns[kCompactEntries]);
  Print("left over", ns[kCompactViews] - views, ns[kCompactEntries] - made);
  Print("together: check of the runs", ns[kCheckRunsFilter], none);
  Print("together: merge of the scans", ns[kMerge], ns[kTableMerge]);
  Print("together: a run written of entries in memory", ns[kWrite], ns[kWrite]);
  return 0;
}
