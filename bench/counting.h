// Allocations of this process, counted: the program that links counting.cc has its own malloc around the C library's.
#pragma once

#include <cstdint>

namespace bench {

struct Allocations {
  uint64_t calls;  // malloc, calloc, realloc and their kin
  uint64_t bytes;  // asked for
};

// All since the process began.
Allocations AllocationsSoFar();

}  // namespace bench
