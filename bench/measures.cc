#include "measures.h"

#include <algorithm>
#include <cstdio>
#include <cstdlib>
#include <memory>
#include <string>

#include "filters.h"
#include "leveldb_table.h"
#include "inputs.h"
#include "library.h"
#include "reading.h"

namespace bench {

namespace {

const uint8_t* BytesOf(const std::string& text) {
  return reinterpret_cast<const uint8_t*>(text.data());
}

void Agree(const std::string& what, bool same) {
  if (same) return;
  fprintf(stderr, "%s: the answers differ\n", what.c_str());
  exit(1);
}

// The library's calls over the block of some entries.
class LibraryBlock {
 public:
  LibraryBlock(const Entries& entries, int interval)
      : bytes_(entries.Bytes()),
        count_(entries.list.size()),
        key_len_(entries.key_len),
        interval_(uint8_t(interval)) {}

  uint64_t Encode(uint64_t times, std::string* out) const {
    uint8_t* room = out ? reinterpret_cast<uint8_t*>(&(*out)[0]) : nullptr;
    return sst_encode(BytesOf(bytes_), bytes_.size(), count_, interval_, 0, 1, times, room,
                      out ? out->size() : 0);
  }
  uint64_t Walk(uint64_t times) const {
    return sst_walk(BytesOf(bytes_), bytes_.size(), count_, interval_, 0, 1, times);
  }
  uint64_t WalkBack(uint64_t times) const {
    return sst_walk_back(BytesOf(bytes_), bytes_.size(), count_, interval_, 0, 1, times);
  }
  uint64_t Materialize(uint64_t times) const {
    return sst_materialize(BytesOf(bytes_), bytes_.size(), count_, interval_, 0, 1, times);
  }
  uint64_t First(uint64_t times) const {
    return sst_iter(BytesOf(bytes_), bytes_.size(), count_, interval_, 0, 1, times);
  }
  uint64_t Get(const std::string& needles, uint64_t times) const {
    return sst_get(BytesOf(bytes_), bytes_.size(), count_, interval_, 0, 1, times,
                   BytesOf(needles), needles.size(), key_len_);
  }
  uint64_t GetTable(const std::string& needles, uint64_t times) const {
    return sst_get_table(BytesOf(bytes_), bytes_.size(), count_, interval_, 0, 1, times,
                         BytesOf(needles), needles.size(), key_len_);
  }
  uint64_t MakeTable(uint64_t times) const {
    return sst_make_table(BytesOf(bytes_), bytes_.size(), count_, interval_, 0, 1, times);
  }
  uint64_t Heads() const { return (count_ + interval_ - 1) / interval_; }
  uint64_t SeekNext(const std::string& needles, uint64_t times) const {
    return sst_seek_next(BytesOf(bytes_), bytes_.size(), count_, interval_, 0, 1, times,
                         BytesOf(needles), needles.size(), key_len_);
  }
  uint64_t SeekNextTable(const std::string& needles, uint64_t times) const {
    return sst_seek_next_table(BytesOf(bytes_), bytes_.size(), count_, interval_, 0, 1, times,
                               BytesOf(needles), needles.size(), key_len_);
  }

 private:
  std::string bytes_;
  size_t count_;
  size_t key_len_;
  uint8_t interval_;
};

uint64_t LastByte(const std::string& text) {
  return text.empty() ? 0 : static_cast<unsigned char>(text.back());
}

// What the library adds for a whole entry.
uint64_t EntrySum(const Entry& entry) {
  return entry.seqno + entry.key.size() + entry.value.size() + LastByte(entry.key) +
         LastByte(entry.value);
}

// What the library adds for reads of which LevelDB says whether they find an entry.
uint64_t ReadSum(const Entries& entries, const std::string& needles,
                 const std::vector<bool>& found) {
  uint64_t sum = 0;
  for (size_t i = 0; i < found.size(); i++) {
    std::string needle = needles.substr(i * entries.key_len, entries.key_len);
    const Entry* entry = found[i] ? EntryOf(entries.list, needle) : nullptr;
    sum += entry ? EntrySum(*entry) : 1;
  }
  return sum;
}

// What the library adds for seeks of keys that are there, each with the item behind it.
uint64_t SeekSum(const Entries& entries, const std::vector<Item>& items) {
  uint64_t sum = 0;
  for (size_t at = 0; at < entries.hits.size(); at += entries.key_len) {
    std::string needle = entries.hits.substr(at, entries.key_len);
    auto first = std::lower_bound(items.begin(), items.end(), needle,
                                  [](const Item& a, const std::string& b) { return a.key < b; });
    sum += 1 + first->sum;
  }
  return sum;
}

// Shows that both sides hold the same entries, and find the same needles.
void Compare(const std::string& name, const Entries& entries, const LibraryBlock& ours,
             const LevelTable& other, int interval) {
  std::string payload(ours.Encode(1, nullptr), '\0');
  Agree(name + " encode", ours.Encode(2, &payload) == payload.size());
  std::vector<Item> items;
  Agree(name + " encode", ItemsIn(payload, interval, &items));
  auto walked = other.Walked();
  Agree(name + " walk", items.size() == walked.size() && items.size() == entries.list.size());
  uint64_t item_sum = 0, entry_sum = 0;
  for (size_t i = 0; i < items.size(); i++) {
    Agree(name + " walk", items[i].key == walked[i].first && items[i].value == walked[i].second);
    Agree(name + " walk", items[i].seqno == entries.list[i].seqno);
    item_sum += items[i].sum;
    entry_sum += EntrySum(entries.list[i]);
  }
  Agree(name + " walk", ours.Walk(1) == item_sum);
  Agree(name + " walk_back", ours.WalkBack(1) == item_sum);
  Agree(name + " materialize", ours.Materialize(1) == entry_sum);
  Agree(name + " iter", ours.First(1) == items[0].sum);
  for (const std::string* needles : {&entries.hits, &entries.misses}) {
    std::vector<bool> found = other.Found(*needles);
    for (bool hit : found) Agree(name + " get", hit == (needles == &entries.hits));
    Agree(name + " get", ours.Get(*needles, 1) == ReadSum(entries, *needles, found));
    Agree(name + " get_table", ours.GetTable(*needles, 1) == ReadSum(entries, *needles, found));
  }
  Agree(name + " seek_next", ours.SeekNext(entries.hits, 1) == SeekSum(entries, items));
  Agree(name + " seek_next_table", ours.SeekNextTable(entries.hits, 1) == SeekSum(entries, items));
  Agree(name + " make_table", ours.MakeTable(1) == ours.Heads());
}

// Searches, by the payload and by a table of the heads, and what the table costs, a head.
void SearchMeasures(const std::string& name, const Entries& entries, const LibraryBlock& ours,
                    LevelTable& other, const std::function<void(const Measure&)>& take) {
  const auto read = [&](const std::string& needles) {
    return [&](uint64_t n) { return other.Get(needles, n); };
  };
  const auto seek = [&](uint64_t n) { return other.SeekNext(entries.hits, n); };
  take({name + " get_hit", kNeedles, [&](uint64_t n) { return ours.Get(entries.hits, n); },
        read(entries.hits)});
  take({name + " get_miss", kNeedles, [&](uint64_t n) { return ours.Get(entries.misses, n); },
        read(entries.misses)});
  take({name + " seek_next", kNeedles, [&](uint64_t n) { return ours.SeekNext(entries.hits, n); },
        seek});
  take({name + " get_hit_table", kNeedles,
        [&](uint64_t n) { return ours.GetTable(entries.hits, n); }, read(entries.hits)});
  take({name + " get_miss_table", kNeedles,
        [&](uint64_t n) { return ours.GetTable(entries.misses, n); }, read(entries.misses)});
  take({name + " seek_next_table", kNeedles,
        [&](uint64_t n) { return ours.SeekNextTable(entries.hits, n); }, seek});
  take({name + " make_table", ours.Heads(), [&](uint64_t n) { return ours.MakeTable(n); },
        nullptr});
}

void BlockMeasures(const BlockShape& shape, const std::function<void(const Measure&)>& take) {
  const std::string name = shape.Name();
  const Entries entries(shape.Count(), shape.key_len, shape.value_len);
  const LibraryBlock ours(entries, shape.interval);
  LevelTable other(entries, shape.interval);
  Compare(name, entries, ours, other, shape.interval);
  const size_t count = entries.list.size();
  take({name + " encode", count, [&](uint64_t n) { return ours.Encode(n, nullptr); },
        [&](uint64_t n) { return other.Encode(n); }});
  take({name + " walk", count, [&](uint64_t n) { return ours.Walk(n); },
        [&](uint64_t n) { return other.Walk(n); }});
  take({name + " walk_back", count, [&](uint64_t n) { return ours.WalkBack(n); },
        [&](uint64_t n) { return other.WalkBack(n); }});
  take({name + " materialize", count, [&](uint64_t n) { return ours.Materialize(n); },
        [&](uint64_t n) { return other.Materialize(n); }});
  take({name + " iter", 1, [&](uint64_t n) { return ours.First(n); },
        [&](uint64_t n) { return other.First(n); }});
  SearchMeasures(name, entries, ours, other, take);
}

void SpreadMeasures(const BlockShape& shape, const std::function<void(const Measure&)>& take) {
  const Entries entries(shape.Count(), shape.key_len, shape.value_len, shape.start);
  const LibraryBlock ours(entries, shape.interval);
  LevelTable other(entries, shape.interval);
  Compare(shape.Name(), entries, ours, other, shape.interval);
  SearchMeasures(shape.Name(), entries, ours, other, take);
}

void KeyMeasures(size_t key_len, const std::function<void(const Measure&)>& take) {
  const std::string name = "k" + std::to_string(key_len);
  const size_t count = 1000;
  const std::string keys = Entries(count, key_len, 0).Keys();
  const uint8_t* bytes = BytesOf(keys);
  Agree(name + " compare",
        sst_compare(bytes, keys.size(), key_len, 1) == LevelCompare(keys, key_len, 1));
  Agree(name + " shared",
        sst_shared(bytes, keys.size(), key_len, 1) == PlainShared(keys, key_len));
  Agree(name + " hash", sst_hash(bytes, keys.size(), key_len, 1) == PlainHash(keys, key_len));
  take({name + " compare", count,
        [&](uint64_t n) { return sst_compare(bytes, keys.size(), key_len, n); },
        [&](uint64_t n) { return LevelCompare(keys, key_len, n); }});
  take({name + " shared", count,
        [&](uint64_t n) { return sst_shared(bytes, keys.size(), key_len, n); }, nullptr});
  take({name + " hash", count,
        [&](uint64_t n) { return sst_hash(bytes, keys.size(), key_len, n); }, nullptr});
}

void FilterMeasures(size_t key_len, size_t count, const std::function<void(const Measure&)>& take) {
  const std::string name = "k" + std::to_string(key_len) + ".n" + std::to_string(count);
  const Entries entries(count, key_len, 0);
  const LibraryFilter ours(entries.Keys(), key_len);
  const LevelFilter other(entries.Keys(), key_len);
  Agree(name + " filter_build", ours.payload() == PlainFilter(entries.Keys(), key_len, kBitsPerKey));
  Agree(name + " filter_hit", ours.Contains(entries.hits, 1) == kNeedles);
  Agree(name + " filter_hit", other.Contains(entries.hits, 1) == kNeedles);
  Agree(name + " filter_miss", ours.Contains(entries.misses, 1) ==
                                   PlainContained(ours.payload(), entries.misses, key_len));
  take({name + " filter_build", count, [&](uint64_t n) { return ours.Build(n); },
        [&](uint64_t n) { return other.Build(n); }});
  take({name + " filter_hit", kNeedles, [&](uint64_t n) { return ours.Contains(entries.hits, n); },
        [&](uint64_t n) { return other.Contains(entries.hits, n); }});
  take({name + " filter_miss", kNeedles,
        [&](uint64_t n) { return ours.Contains(entries.misses, n); },
        [&](uint64_t n) { return other.Contains(entries.misses, n); }});
}

void VarintMeasures(Lengths lengths, const std::string& name,
                    const std::function<void(const Measure&)>& take) {
  const size_t count = 1000;
  const std::string varints = Varints(lengths, count);
  Agree(name + " varint",
        sst_varint(BytesOf(varints), varints.size(), 1) == PlainVarints(varints));
  take({name + " varint", count,
        [&](uint64_t n) { return sst_varint(BytesOf(varints), varints.size(), n); }, nullptr});
}

}  // namespace

void ForEachMeasure(Form form, const std::function<void(const Measure&)>& take) {
  for (const BlockShape& shape : form == Form::kFull ? AllBlocks() : QuickBlocks()) {
    BlockMeasures(shape, take);
  }
  for (const BlockShape& shape : SpreadBlocks()) SpreadMeasures(shape, take);
  for (size_t key_len : {16, 32}) KeyMeasures(key_len, take);
  for (size_t key_len : {16, 32})
    for (size_t count : {1000, 100000}) FilterMeasures(key_len, count, take);
  VarintMeasures(Lengths::kOne, "one-byte", take);
  VarintMeasures(Lengths::kThree, "three-byte", take);
  VarintMeasures(Lengths::kMixed, "mixed", take);
}

}  // namespace bench
