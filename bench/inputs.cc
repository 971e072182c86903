#include "inputs.h"

#include <cinttypes>
#include <cstdio>

namespace bench {

uint64_t Generator::Next() {
  state_ += 0x9e3779b97f4a7c15u;
  uint64_t z = state_;
  z = (z ^ (z >> 30)) * 0xbf58476d1ce4e5b9u;
  z = (z ^ (z >> 27)) * 0x94d049bb133111ebu;
  return z ^ (z >> 31);
}

std::string BlockShape::Name() const {
  const char* keys = start == Start::kShared ? "k" : "s";
  return keys + std::to_string(key_len) + ".v" + std::to_string(value_len) + "." +
         std::to_string(kib) + "K.r" + std::to_string(interval);
}

namespace {

// The key of a number below 2^28: a fixed start, and the number in hex; or the number in hex, and
// then zeros.
std::string KeyOf(uint64_t number, size_t key_len, Start start) {
  char digits[17];
  if (start == Start::kSpread) {
    snprintf(digits, sizeof digits, "%016" PRIx64, number << 36);
    return digits + std::string(key_len - 16, '0');
  }
  if (key_len == 16) {
    snprintf(digits, sizeof digits, "%012" PRIx64, number);
    return std::string("tbl1") + digits;
  }
  snprintf(digits, sizeof digits, "%016" PRIx64, number);
  return std::string("tenant/0007/obj/") + digits;
}

std::string ValueOf(uint64_t word, size_t len) {
  std::string value(len, '\0');
  for (size_t i = 0; i < len; i++) value[i] = char(word >> (8 * (i % 8)));
  return value;
}

void PutNumber(std::string* bytes, uint64_t number, int width) {
  for (int i = 0; i < width; i++) *bytes += char(number >> (8 * i));
}

}  // namespace

Entries::Entries(size_t count, size_t key_len, size_t value_len, Start start) : key_len(key_len) {
  Generator parts(1);
  std::vector<uint64_t> numbers;
  uint64_t number = 0;
  for (size_t i = 0; i < count; i++) {
    uint64_t gap = parts.Next() % 65536;
    uint64_t seqno = parts.Next() % (1 << 20);
    uint64_t word = parts.Next();
    number += 2 + 2 * gap;  // even, so that odd numbers are free for misses
    numbers.push_back(number);
    list.push_back({KeyOf(number, key_len, start), ValueOf(word, value_len), seqno});
  }
  Generator places(2), between(3);
  for (size_t i = 0; i < kNeedles; i++) {
    size_t place = places.Next() % count;
    uint64_t before = place == 0 ? 0 : numbers[place - 1];
    uint64_t room = (numbers[place] - before) / 2;
    hits += list[place].key;
    misses += KeyOf(before + 1 + 2 * (between.Next() % room), key_len, start);
  }
}

std::string Entries::Bytes() const { return ListBytes(list); }

std::string ListBytes(const std::vector<Entry>& list) {
  std::string bytes;
  for (const Entry& entry : list) {
    PutNumber(&bytes, 0, 1);  // a value
    PutNumber(&bytes, entry.seqno, 8);
    PutNumber(&bytes, entry.key.size(), 2);
    PutNumber(&bytes, entry.value.size(), 4);
    bytes += entry.key;
    bytes += entry.value;
  }
  return bytes;
}

std::vector<std::vector<Entry>> PartsOf(const std::vector<Entry>& list, size_t tables) {
  std::vector<std::vector<Entry>> parts(tables);
  for (const Entry& entry : list) parts[entry.seqno % tables].push_back(entry);
  return parts;
}

std::string Entries::Keys() const {
  std::string keys;
  for (const Entry& entry : list) keys += entry.key;
  return keys;
}

std::string Varints(Lengths lengths, size_t count) {
  Generator numbers(4);
  std::string bytes;
  for (size_t i = 0; i < count; i++) {
    uint64_t word = numbers.Next();
    uint64_t number;
    switch (lengths) {
      case Lengths::kOne: number = word % 128; break;
      case Lengths::kThree: number = 16384 + word % (2097152 - 16384); break;
      default: number = numbers.Next() >> (word % 64); break;
    }
    for (; number >= 128; number >>= 7) bytes += char(number | 128);
    bytes += char(number);
  }
  return bytes;
}

std::vector<BlockShape> QuickBlocks() {
  return {{16, 32, 4, 1},   {16, 32, 4, 4},   {16, 32, 4, 16},  {32, 32, 4, 16},
          {16, 0, 4, 16},   {16, 128, 4, 16}, {16, 32, 16, 16}, {16, 32, 64, 16}};
}

std::vector<BlockShape> SpreadBlocks() {
  std::vector<BlockShape> all;
  for (size_t key_len : {16, 32})
    for (size_t kib : {4, 16, 64})
      for (int interval : {1, 16}) all.push_back({key_len, 32, kib, interval, Start::kSpread});
  return all;
}

std::vector<BlockShape> AllBlocks() {
  std::vector<BlockShape> all;
  for (size_t key_len : {16, 32})
    for (size_t value_len : {0, 32, 128})
      for (size_t kib : {4, 16, 64})
        for (int interval : {1, 4, 16}) all.push_back({key_len, value_len, kib, interval});
  return all;
}

}  // namespace bench
