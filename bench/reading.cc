#include "reading.h"

#include <algorithm>

namespace bench {

namespace {

// Reads from the front of bytes.
class Cursor {
 public:
  explicit Cursor(const std::string& bytes, size_t at = 0) : bytes_(bytes), at_(at) {}

  bool failed() const { return failed_; }
  size_t at() const { return at_; }
  unsigned char Byte() {
    if (at_ == bytes_.size()) failed_ = true;
    return failed_ ? 0 : static_cast<unsigned char>(bytes_[at_++]);
  }
  uint64_t Varint() {
    uint64_t number = 0;
    for (int shift = 0; shift < 64; shift += 7) {
      unsigned char byte = Byte();
      number |= uint64_t(byte & 127) << shift;
      if (byte < 128) break;
    }
    return number;
  }
  std::string Bytes(size_t len) {
    if (len > bytes_.size() - at_) failed_ = true;
    if (failed_) return "";
    at_ += len;
    return bytes_.substr(at_ - len, len);
  }

 private:
  const std::string& bytes_;
  size_t at_;
  bool failed_ = false;
};

// The hash of the key at an offset.
uint64_t HashOf(const std::string& keys, size_t at, size_t key_len) {
  uint64_t hash = 0;
  for (size_t i = 0; i < key_len; i++) hash = hash * 31 + static_cast<unsigned char>(keys[at + i]);
  return hash;
}

// The probes of a hash: k bits of m.
std::vector<uint64_t> ProbesOf(uint64_t hash, uint64_t m, uint64_t k) {
  std::vector<uint64_t> probes;
  uint64_t sum = 0, factorial = 1;
  for (uint64_t i = 0; i < k; i++) {
    probes.push_back((hash + (hash >> 32) * 0x517cc1b727220a95u * sum) % m);
    sum += factorial;
    factorial *= i + 1;
  }
  return probes;
}

std::string NumberBytes(uint64_t number) {
  std::string bytes;
  for (int i = 0; i < 8; i++) bytes += char(number >> (8 * i));
  return bytes;
}

uint64_t NumberAt(const std::string& bytes, size_t at) {
  uint64_t number = 0;
  for (int i = 7; i >= 0; i--) number = number * 256 + static_cast<unsigned char>(bytes[at + i]);
  return number;
}

// The number of items, the last four bytes of a block.
size_t ItemCount(const std::string& payload) {
  size_t count = 0;
  for (int i = 1; i <= 4; i++) {
    count = count * 256 + static_cast<unsigned char>(payload[payload.size() - i]);
  }
  return count;
}

}  // namespace

bool ItemsIn(const std::string& payload, int interval, std::vector<Item>* items) {
  if (payload.size() < 31) return false;
  const size_t count = ItemCount(payload);
  Cursor cursor(payload);
  std::string head;
  size_t head_start = 0;
  for (size_t i = 0; i < count && !cursor.failed(); i++) {
    const bool is_head = i % interval == 0;
    Item item;
    const unsigned char type = cursor.Byte();
    item.seqno = cursor.Varint();
    const size_t shared = is_head ? 0 : cursor.Varint();
    const size_t rest = cursor.Varint();
    if (shared > head.size()) return false;
    const size_t key_start = cursor.at();
    item.key = head.substr(0, shared) + cursor.Bytes(rest);
    item.sum = item.seqno + type + key_start + 3 * (key_start + rest);
    if (is_head) {
      head = item.key;
      head_start = key_start;
    } else {
      item.sum += 5 * head_start + 7 * (head_start + shared);
    }
    if (type == 0 || type == 4) {
      const size_t len = cursor.Varint();
      item.sum += 9 * cursor.at() + 11 * (cursor.at() + len);
      item.value = cursor.Bytes(len);
    }
    items->push_back(item);
  }
  return !cursor.failed() && cursor.Byte() == 255;
}

const Entry* EntryOf(const std::vector<Entry>& entries, const std::string& key) {
  auto at = std::lower_bound(
      entries.begin(), entries.end(), key,
      [](const Entry& entry, const std::string& wanted) { return entry.key < wanted; });
  return at != entries.end() && at->key == key ? &*at : nullptr;
}

uint64_t PlainShared(const std::string& keys, size_t key_len) {
  uint64_t sum = 0;
  for (size_t at = key_len; at < keys.size(); at += key_len) {
    size_t shared = 0;
    while (shared < key_len && keys[at - key_len + shared] == keys[at + shared]) shared++;
    sum += shared;
  }
  return sum;
}

uint64_t PlainHash(const std::string& keys, size_t key_len) {
  uint64_t sum = 0;
  for (size_t at = 0; at < keys.size(); at += key_len) {
    sum = 3 * sum + HashOf(keys, at, key_len);
  }
  return sum;
}

uint64_t PlainVarints(const std::string& varints) {
  uint64_t sum = 0;
  for (Cursor cursor(varints); cursor.at() < varints.size();) sum += cursor.Varint();
  return sum;
}

std::string PlainFilter(const std::string& keys, size_t key_len, uint64_t bits) {
  const uint64_t m = (keys.size() / key_len * bits + 7) / 8 * 8;
  const uint64_t k = std::max<uint64_t>(bits * 693147 / 1000000, 1);
  std::string bytes(m / 8, '\0');
  for (size_t at = 0; at < keys.size(); at += key_len) {
    for (uint64_t bit : ProbesOf(HashOf(keys, at, key_len), m, k)) {
      bytes[bit / 8] = char(bytes[bit / 8] | 128 >> (bit % 8));
    }
  }
  return std::string("LSM\3\0\0", 6) + NumberBytes(m) + NumberBytes(k) + bytes;
}

uint64_t PlainContained(const std::string& filter, const std::string& needles, size_t key_len) {
  const uint64_t m = NumberAt(filter, 6), k = NumberAt(filter, 14);
  uint64_t sum = 0;
  for (size_t at = 0; at < needles.size(); at += key_len) {
    bool all = true;
    for (uint64_t bit : ProbesOf(HashOf(needles, at, key_len), m, k)) {
      all = all && (filter[22 + bit / 8] & 128 >> (bit % 8));
    }
    sum += all;
  }
  return sum;
}

}  // namespace bench
