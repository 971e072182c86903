// Prints a table for `growth`: nanoseconds an entry of compactions and merges of tables in memory as they grow.
// `merging MOST ROUNDS` goes up to so many entries, by tens from 10,000; where tables grow they hold a million or MOST.
// Each time is the least of the rounds, since the machine is slower at times.
//
// Compactions verify and check all that they read; merges are of trusted runs, LevelDB's verifies nothing.
#include <algorithm>
#include <cstdio>
#include <cstdlib>
#include <memory>
#include <vector>

#include "inputs.h"
#include "leveldb_merge.h"
#include "library_run.h"
#include "timing.h"

namespace {

using namespace bench;

uint64_t Must(uint64_t answer) {
  if (answer != kRefused) return answer;
  fprintf(stderr, "merging: refused\n");
  exit(1);
}

// A line of the table, and the fastest times so far.
struct Point {
  const char* measure;
  size_t size, count, tables;
  std::vector<double> ns = std::vector<double>(4, 1e9);

  void Measure() {
    auto entries = std::make_unique<Entries>(count, kKeyLen, kValueLen);
    const LibraryRun run(entries->list);
    const LevelMerge other(entries->list, tables);
    entries.reset();  // a gigabyte and more
    const auto samples =
        SamplesInTurn({[&](uint64_t times) { return Must(run.Compact(tables, false, times)); },
                       [&](uint64_t times) { return Must(run.Merge(tables, false, times)); },
                       [&](uint64_t times) { return other.Compact(times); },
                       [&](uint64_t times) { return other.Walk(false, times); }},
                      count, {std::max(0.05, 4e-7 * double(count)), 3});
    for (size_t i = 0; i < ns.size(); i++) ns[i] = std::min(ns[i], MedianOf(samples[i]));
  }
};

}  // namespace

int main(int argc, char** argv) {
  if (argc != 3) {
    fprintf(stderr, "usage: %s MOST ROUNDS\n", argv[0]);
    return 2;
  }
  const size_t most = strtoull(argv[1], nullptr, 10);
  std::vector<Point> points;
  for (size_t count = 10000; count <= most; count *= 10) points.push_back({"merging.entries", count, count, 8});
  for (size_t tables = 2; tables <= 64; tables *= 2) {
    points.push_back({"merging.sources", tables, std::min<size_t>(most, 1000000), tables});
  }
  PinToCore(-1);
  for (int round = 0; round < atoi(argv[2]); round++) {
    for (Point& point : points) point.Measure();
  }
  printf("measure,size,compaction,merge,LevelDB compacts,LevelDB merges\n");
  for (const Point& point : points) {
    printf("%s,%zu", point.measure, point.size);
    for (double time : point.ns) printf(",%.2f", time);
    printf("\n");
  }
  return 0;
}
