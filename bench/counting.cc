#include "counting.h"

#include <cerrno>
#include <cstddef>

// The GNU C library has its own functions under these names too.
extern "C" {
void* __libc_malloc(size_t size);
void* __libc_calloc(size_t count, size_t size);
void* __libc_realloc(void* block, size_t size);
void* __libc_memalign(size_t alignment, size_t size);
}

namespace {

uint64_t calls = 0, bytes = 0;

void Count(size_t size) {
  calls++;
  bytes += size;
}

}  // namespace

extern "C" {

void* malloc(size_t size) noexcept {
  Count(size);
  return __libc_malloc(size);
}
void* calloc(size_t count, size_t size) noexcept {
  Count(count * size);
  return __libc_calloc(count, size);
}
void* realloc(void* block, size_t size) noexcept {
  Count(size);
  return __libc_realloc(block, size);
}
void* memalign(size_t alignment, size_t size) noexcept {
  Count(size);
  return __libc_memalign(alignment, size);
}
void* aligned_alloc(size_t alignment, size_t size) noexcept { return memalign(alignment, size); }
int posix_memalign(void** block, size_t alignment, size_t size) noexcept {
  *block = memalign(alignment, size);
  return *block ? 0 : ENOMEM;
}

}  // extern "C"

namespace bench {

Allocations AllocationsSoFar() { return {calls, bytes}; }

}  // namespace bench
