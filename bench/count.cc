// Counts allocations: prints a line a measure of a block, with five numbers an operation: the library's allocations in
// a first turn and in each later one, its bytes in a later one, and LevelDB's allocations and bytes in a later one.
//
// An operation is a whole block for encode and walk, an entry for materialize, an iterator for iter, a read for get.
#include <cstdio>

#include "counting.h"
#include "measures.h"

namespace {

using bench::Allocations;
using bench::AllocationsSoFar;

Allocations Counted(const bench::Repeated& call, uint64_t times) {
  const Allocations before = AllocationsSoFar();
  bench::Keep(call(times));
  const Allocations after = AllocationsSoFar();
  return {after.calls - before.calls, after.bytes - before.bytes};
}

struct Turns {
  double first;
  double later;
  double later_bytes;
};

Turns TurnsOf(const bench::Repeated& call, double operations) {
  Counted(call, 1);  // what stays behind in the tables of either side
  const Allocations none = Counted(call, 0), one = Counted(call, 1), two = Counted(call, 2);
  return {double(one.calls - none.calls) / operations, double(two.calls - one.calls) / operations,
          double(two.bytes - one.bytes) / operations};
}

}  // namespace

int main() {
  bench::ForEachMeasure(bench::Form::kQuick, [](const bench::Measure& measure) {
    const size_t space = measure.name.find(' ');
    const std::string operation = measure.name.substr(space + 1);
    if (!measure.other || operation == "compare") return;
    const bool is_whole = operation == "encode" || operation == "walk" || operation == "walk_back";
    const double operations = is_whole ? 1 : double(measure.operations);
    const Turns ours = TurnsOf(measure.ours, operations);
    const Turns other = TurnsOf(measure.other, operations);
    printf("%s %.2f %.2f %.0f %.2f %.0f\n", measure.name.c_str(), ours.first, ours.later,
           ours.later_bytes, other.later, other.later_bytes);
  });
  return 0;
}
