// Prints to what share of 10,000 absent keys a filter of 10,000 keys answers yes, of both sides.
#include <cstdio>
#include <string>

#include "filters.h"
#include "inputs.h"

int main() {
  using namespace bench;
  printf("| Keys of | Library | LevelDB |\n|---|---|---|\n");
  for (size_t key_len : {16, 32}) {
    const std::string all = Entries(20000, key_len, 0).Keys();
    std::string there, absent;
    for (size_t at = 0; at < all.size(); at += 2 * key_len) {
      there += all.substr(at, key_len);
      absent += all.substr(at + key_len, key_len);
    }
    printf("| %zu bytes | %.2f %% | %.2f %% |\n", key_len,
           double(LibraryFilter(there, key_len).Contains(absent, 1)) / 100,
           double(LevelFilter(there, key_len).Contains(absent, 1)) / 100);
  }
  return 0;
}
