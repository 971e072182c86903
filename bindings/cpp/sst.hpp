/* Table files of the block layer for C++20: a header over sst.h, to link with libsst.

       auto table = sst::table::check(file);              // std::span<const uint8_t>; throws sst::error
       if (auto entry = table.get("ann")) use(entry->value);
       for (auto at = table.lower_bound("a"); at != table.end() && at->compare("b") < 0; ++at) use(*at);

   Tables are by the hash function SST_XXH3, or by the one that is given: to check() and trusted(), and to write()
   and a writer in their configuration.

   What is borrowed has to stay where it is as long as tables, iterators and entries over it are used. A table
   may be read from any number of threads. What the calls behind this header do is proved; this header is
   tested. */
#pragma once
#include "sst.h"

#include <algorithm>
#include <concepts>
#include <cstring>
#include <iterator>
#include <memory>
#include <optional>
#include <span>
#include <stdexcept>
#include <string>
#include <string_view>
#include <utility>
#include <vector>

namespace sst {

/* Borrowed bytes, of a container of bytes or of text. */
struct bytes : std::span<const uint8_t> {
    using std::span<const uint8_t>::span;
    bytes(std::span<const uint8_t> borrowed) : span(borrowed) {}
    bytes(std::string_view text) : span(reinterpret_cast<const uint8_t *>(text.data()), text.size()) {}
    bytes(const std::string &text) : bytes(std::string_view(text)) {}
    bytes(const char *text) : bytes(std::string_view(text)) {}
    std::string text() const { return {reinterpret_cast<const char *>(data()), size()}; }
    /* The calls take no null pointer. */
    const uint8_t *lent() const { return data() ? data() : reinterpret_cast<const uint8_t *>(""); }
};

/* What a call refused. */
struct error : std::runtime_error {
    explicit error(uint32_t status, std::optional<sst_check_end> end = {})
        : std::runtime_error(sst_error_name(status)), status(status), end(end) {}
    uint32_t status;                  /* of enum sst_status */
    std::optional<sst_check_end> end; /* where a check of a table ended */
};

/* An entry of a table, whose bytes are borrowed. Its key is the prefix and then the rest. */
struct entry {
    bytes prefix, rest, value;
    uint64_t seqno;
    sst_value_type type;

    bool is_tombstone() const { return type == SST_TOMBSTONE || type == SST_WEAK_TOMBSTONE; }
    std::string key() const { return prefix.text() + rest.text(); }
    /* Below, at or above 0 where the key is below, equal to or above another, bytewise. */
    int compare(bytes other) const {
        size_t front = std::min(prefix.size(), other.size());
        if (int order = front ? std::memcmp(prefix.data(), other.data(), front) : 0) return order;
        if (front < prefix.size()) return 1;
        size_t left = other.size() - front, back = std::min(rest.size(), left);
        if (int order = back ? std::memcmp(rest.data(), other.data() + front, back) : 0) return order;
        return rest.size() < left ? -1 : rest.size() > left;
    }
};

/* The entries that a range has left, from the front; a step takes one from the range. */
template <class Range> class steps {
  public:
    using iterator_concept = std::input_iterator_tag;
    using value_type = entry;
    using difference_type = std::ptrdiff_t;
    explicit steps(Range *over) : over_(over), held_(over->next()) {}
    const entry &operator*() const { return *held_; }
    const entry *operator->() const { return &*held_; }
    steps &operator++() { return held_ = over_->next(), *this; }
    void operator++(int) { ++*this; }
    bool operator==(std::default_sentinel_t) const { return !held_; }

  private:
    Range *over_;
    std::optional<entry> held_;
};

/* A table file over borrowed bytes. */
class table {
  public:
    /* Checks all bytes of a file that was written by a hash function. Throws error with what the check met first,
       and where it ended. */
    static table check(bytes file, sst_hash hash = SST_XXH3) {
        table found(file, hash);
        sst_check_end end;
        uint32_t status = sst_run_check_at(found.run_.lent(), found.run_.size(), &found.handles_, hash,
                                           &found.summary_, &end);
        if (status == SST_MEMORY || status == SST_BAD_ARGUMENT) throw error(status);
        if (status) throw error(status, end);
        return found;
    }

    /* Takes a file that was checked before, or that the library wrote, by this hash function, and tests nothing
       but its length. Reads of other bytes are undefined. Its summary has the number of blocks alone. */
    static table trusted(bytes file, sst_hash hash = SST_XXH3) {
        table found(file, hash);
        found.summary_ = {found.window({}, {}).end_block + 1, 0, 0, 0};
        return found;
    }

    const sst_summary &summary() const { return summary_; }

    /* The first entry of a key strictly below a sequence number, a tombstone too. */
    std::optional<entry> get(bytes key, uint64_t below = UINT64_MAX) const {
        sst_place at;
        uint32_t status =
            sst_run_get(run_.data(), run_.size(), &handles_, hash_, key.lent(), key.size(), below, &at);
        return status == SST_OK ? std::optional(entry_at(at)) : std::nullopt;
    }

    /* An entry in the order of the table, forwards and backwards. It keeps the places of its block, which
       copies of it share. */
    class iterator {
      public:
        using iterator_category = std::bidirectional_iterator_tag;
        using iterator_concept = std::bidirectional_iterator_tag;
        using value_type = entry;
        using difference_type = std::ptrdiff_t;
        using reference = entry;
        struct pointer {
            entry held;
            const entry *operator->() const { return &held; }
        };

        iterator() = default;
        entry operator*() const { return table_->entry_at((*places_)[place_]); }
        pointer operator->() const { return {**this}; }
        iterator &operator++() {
            if (++place_ == places_->size()) go_to(block_ + 1), place_ = 0;
            return *this;
        }
        iterator &operator--() {
            if (place_ == 0) go_to(block_ - 1), place_ = places_->size();
            --place_;
            return *this;
        }
        iterator operator++(int) { return std::exchange(*this, std::next(*this)); }
        iterator operator--(int) { return std::exchange(*this, std::prev(*this)); }
        bool operator==(const iterator &other) const { return block_ == other.block_ && place_ == other.place_; }

      private:
        friend table;
        iterator(const table *over, size_t block, size_t place) : table_(over), place_(place) { go_to(block); }
        void go_to(size_t block) {
            block_ = block;
            places_ = table_->places_of(block);
        }
        const table *table_ = nullptr;
        std::shared_ptr<const std::vector<sst_place>> places_;
        size_t block_ = 0, place_ = 0;
    };

    iterator begin() const { return {this, 0, 0}; }
    iterator end() const { return {this, summary_.blocks, 0}; }
    auto rbegin() const { return std::make_reverse_iterator(end()); }
    auto rend() const { return std::make_reverse_iterator(begin()); }

    /* The first entry whose key is not below this one. */
    iterator lower_bound(bytes key) const {
        sst_window from = window(key, {});
        bool none = from.first_block == from.end_block && from.first_index == from.end_index;
        return none ? end() : iterator(this, from.first_block, from.first_index);
    }

    /* The entries of a range of keys that are below a number, from both ends, read in batches. It keeps the
       places of one batch for each end.

           for (auto scan = table.scan("a", "b"); auto entry = scan.next();) use(*entry);
           for (auto entry : table.scan("a")) use(entry); */
    class range {
      public:
        std::optional<entry> next() { return next(front_, back_, 0); }
        std::optional<entry> next_back() { return next(back_, front_, 1); }

        using iterator = steps<range>;
        using sentinel = std::default_sentinel_t;
        iterator begin() { return iterator(this); }
        sentinel end() const { return {}; }

      private:
        friend table;
        /* The places of a batch that are left, in the order in which it was read. */
        struct batch {
            std::vector<sst_place> places;
            size_t first = 0;
            size_t left() const { return places.size() - first; }
        };
        range(const table *over, sst_window window, std::optional<uint64_t> below, size_t room)
            : table_(over), window_(window), below_(below), room_(room) {}
        std::optional<entry> next(batch &near, batch &far, uint8_t reverse) {
            if (near.left() == 0) fill(near, reverse);
            if (near.left() > 0) return table_->entry_at(near.places[near.first++]);
            if (far.left() == 0) return std::nullopt;
            sst_place last = far.places.back();
            far.places.pop_back();
            return table_->entry_at(last);
        }
        void fill(batch &near, uint8_t reverse) {
            near.places.resize(room_), near.first = 0;
            near.places.resize(table_->list(window_, below_, reverse, near.places));
        }
        const table *table_;
        sst_window window_;
        std::optional<uint64_t> below_;
        size_t room_;
        batch front_, back_;
    };

    /* The entries with keys from one on up to before another, with numbers strictly below one, where these are
       given, in batches of `batch`, at least 1. */
    range scan(std::optional<bytes> from = {}, std::optional<bytes> to = {}, std::optional<uint64_t> below = {},
               size_t batch = 64) const {
        return {this, window(from, to), below, batch};
    }

    /* The table as the calls of sst.h take it, without its footer. */
    sst_run run() const { return {run_.data(), run_.size(), handles_}; }

  private:
    friend class merge;
    friend class open_table;
    table(bytes file, sst_hash hash) : hash_(hash) {
        if (uint32_t status = sst_footer_read(file.lent(), file.size(), &handles_)) throw error(status);
        run_ = bytes(file.first(file.size() - 24));
    }
    bytes part(size_t offset, size_t size) const { return bytes(run_.subspan(offset, size)); }
    entry entry_at(const sst_place &at) const {
        return {part(at.prefix_offset, at.prefix_len), part(at.key_offset, at.key_len),
                part(at.value_offset, at.value_len), at.seqno, static_cast<sst_value_type>(at.value_type)};
    }
    /* The window of the entries of a range of keys. */
    sst_window window(std::optional<bytes> from, std::optional<bytes> to) const {
        sst_window found;
        bytes start = from.value_or(bytes("")), stop = to.value_or(bytes(""));
        sst_run_range(run_.data(), run_.size(), &handles_, from.has_value(), start.lent(), start.size(), to.has_value(),
                      stop.lent(), stop.size(), &found);
        return found;
    }
    /* Lists the next entries that a window has left, and returns their number: below that of the places where
       nothing is left then. */
    size_t list(sst_window &left, std::optional<uint64_t> below, uint8_t reverse, std::span<sst_place> places) const {
        size_t count = 0;
        if (uint32_t status = sst_run_scan(run_.data(), run_.size(), &handles_, &left, below.has_value(),
                                           below.value_or(0), reverse, places.data(), places.size(), &count))
            throw error(status);
        return count;
    }
    /* The places of the entries of a block, if there is one. */
    std::shared_ptr<const std::vector<sst_place>> places_of(size_t block) const {
        if (block >= summary_.blocks) return nullptr;
        sst_window left = window({}, {});
        left.first_block = block;
        if (block < left.end_block) left.end_block = block + 1, left.end_index = 0;
        auto places = std::make_shared<std::vector<sst_place>>();
        size_t listed = 0;
        do {
            places->resize(std::max<size_t>(2 * listed, 64));
            listed += list(left, {}, 0, std::span(*places).subspan(listed));
        } while (listed == places->size());
        places->resize(listed);
        return places;
    }

    bytes run_;
    sst_run_handles handles_{};
    sst_hash hash_;
    sst_summary summary_{};
};

/* A table that was opened for many finds. It keeps a number for each block, by which a find mostly goes to a block and
   does not search the index. All else is as of the table: opened->scan(). */
class open_table {
  public:
    explicit open_table(const table &over) : table_(over) {
        fill();
        numbers_.resize(std::max<size_t>(open_.blocks, 1));
        fill();
    }

    /* The first entry of a key strictly below a sequence number, a tombstone too, as table::get. */
    std::optional<entry> get(bytes key, uint64_t below = UINT64_MAX) const {
        sst_place at;
        uint32_t status = sst_run_find(table_.run_.data(), table_.run_.size(), &open_, numbers_.data(), numbers_.size(),
                                       key.lent(), key.size(), below, &at);
        return status == SST_OK ? std::optional(table_.entry_at(at)) : std::nullopt;
    }

    const table *operator->() const { return &table_; }

  private:
    /* Opens the table, with numbers for its blocks where there is room. */
    void fill() {
        if (uint32_t status = sst_run_open(table_.run_.data(), table_.run_.size(), &table_.handles_, table_.hash_,
                                           numbers_.data(), numbers_.size(), &open_))
            throw error(status);
    }

    table table_;
    sst_open_run open_{};
    std::vector<uint64_t> numbers_ = std::vector<uint64_t>(1);
};

/* The entries of several tables in one order: by key, then by sequence number falling, and of equal ones those of the
   earlier table first, so the newest table stands first. The tables may be by either hash function. They are read in
   batches, of which it keeps one. A step throws error where an allocation of the call fails; then the next one tries
   again.

       for (auto merge = sst::merge(tables, "a", "b"); auto entry = merge.next();) use(*entry);
       for (auto entry : sst::merge(tables)) use(entry); */
class merge {
  public:
    /* Of entries with keys from one on up to before another, with numbers strictly below one, where these are given.
       What compact() leaves out for these snapshots above the bottom is left out. A snapshot sees the entries strictly
       below it: one that some of them see goes where each of these sees one of its key that comes before it, also if
       that one is not below the number. Batches are of `batch` entries, at least 1; each opens each table anew, so many
       tables want larger ones: some 8 for each. */
    explicit merge(std::span<const table> tables, std::optional<bytes> from = {}, std::optional<bytes> to = {},
                   std::optional<uint64_t> below = {}, std::span<const uint64_t> snapshots = {}, size_t batch = 64)
        : tables_(tables.begin(), tables.end()), snapshots_(snapshots.begin(), snapshots.end()), below_(below),
          room_(batch) {
        for (const table &table : tables) runs_.push_back(table.run()), windows_.push_back(table.window(from, to));
    }

    std::optional<entry> next() {
        if (next_ == batch_.size()) fill();
        if (next_ == batch_.size()) return std::nullopt;
        const sst_merged &at = batch_[next_++];
        return tables_[at.run].entry_at(at.place);
    }

    using iterator = steps<merge>;
    using sentinel = std::default_sentinel_t;
    iterator begin() { return iterator(this); }
    sentinel end() const { return {}; }

  private:
    void fill() {
        sst_run no_run{};
        sst_window no_window{};
        uint64_t no_snapshot = 0;
        size_t count = 0;
        batch_.resize(room_), next_ = room_;
        uint32_t status = sst_merge_scan(
            runs_.empty() ? &no_run : runs_.data(), runs_.size(), windows_.empty() ? &no_window : windows_.data(),
            windows_.size(), below_.has_value(), below_.value_or(0),
            snapshots_.empty() ? &no_snapshot : snapshots_.data(), snapshots_.size(), batch_.data(), batch_.size(),
            &count);
        if (status) throw error(status);
        batch_.resize(count), next_ = 0;
    }

    std::vector<table> tables_;
    std::vector<sst_run> runs_;
    std::vector<sst_window> windows_;
    std::vector<uint64_t> snapshots_;
    std::optional<uint64_t> below_;
    size_t room_;
    std::vector<sst_merged> batch_;
    size_t next_ = 0;
};

/* An entry to be written, whose bytes are borrowed. */
inline sst_entry given(bytes key, uint64_t seqno, bytes value, sst_value_type type = SST_VALUE) {
    return {key.lent(), key.size(), value.lent(), value.size(), seqno, static_cast<uint8_t>(type)};
}

/* Writes entries as a table file: at least one, by key rising and then by sequence number falling, in blocks
   that end with the entry with which keys and values reach so many bytes. Throws error. */
inline std::vector<uint8_t> write(std::span<const sst_entry> entries, size_t block_size = 4096,
                                  const sst_run_config &config = {0, 1, 10, 16, 1, SST_XXH3}) {
    std::vector<size_t> cuts;
    size_t held = 0, all = 4096;
    for (size_t i = 0; i < entries.size(); i++) {
        if (i > 0 && held >= block_size) cuts.push_back(i), held = 0;
        held += entries[i].key_len + entries[i].value_len;
        all += entries[i].key_len + entries[i].value_len + 64;
    }
    std::vector<uint8_t> out(all);
    sst_run_handles handles;
    size_t len = 0, no_cut = 0;
    auto try_write = [&] {
        sst_entry none{};
        return sst_run_write(entries.empty() ? &none : entries.data(), entries.size(),
                             cuts.empty() ? &no_cut : cuts.data(), cuts.size(), &config, out.data(), out.size(), &len,
                             &handles);
    };
    uint32_t status = try_write();
    if (status == SST_NO_ROOM) out.resize(len), status = try_write();
    if (status) throw error(status);
    out.resize(len + 24);
    size_t footer = 0;
    sst_footer_write(&handles, out.data() + len, 24, &footer);
    return out;
}

/* Compacts tables into one table file, or none where no entry stays. The newest table stands first: of entries
   with the same key and sequence number those of the earlier table come first. Of each table only the entries with
   keys from one on up to before another are taken, where these are given.
   The entries stay that a read below one of the snapshots, or below any number that is at least as large as all
   of them, can find; without snapshots all. At the bottom no older version of a key in the range is elsewhere:
   tombstones that are below a snapshot, and hide nothing that stays, go then.
   The tables may be by either hash function. A block ends with the entry with which its entries have so many bytes as
   they are encoded. Throws error. */
inline std::optional<std::vector<uint8_t>> compact(std::span<const table> tables, std::span<const uint64_t> snapshots,
                                                   bool is_bottom = false, std::optional<bytes> from = {},
                                                   std::optional<bytes> to = {}, size_t block_size = 4096,
                                                   const sst_run_config &config = {0, 1, 10, 16, 1, SST_XXH3}) {
    std::vector<sst_run> runs;
    size_t all = 4096;
    for (const table &table : tables) runs.push_back(table.run()), all += runs.back().len;
    bytes start = from.value_or(bytes("")), stop = to.value_or(bytes(""));
    std::vector<uint8_t> out(all);
    sst_run no_run{};
    sst_run_handles handles;
    size_t len = 0;
    uint64_t no_snapshot = 0;
    auto try_compact = [&] {
        return sst_compact(runs.empty() ? &no_run : runs.data(), runs.size(), from.has_value(), start.lent(), start.size(),
                           to.has_value(), stop.lent(), stop.size(), snapshots.empty() ? &no_snapshot : snapshots.data(),
                           snapshots.size(), is_bottom, block_size, &config, out.data(), out.size(), &len, &handles);
    };
    uint32_t status = try_compact();
    if (status == SST_NO_ROOM) out.resize(len), status = try_compact();
    if (status == SST_NOT_FOUND) return std::nullopt;
    if (status) throw error(status);
    out.resize(len + 24);
    size_t footer = 0;
    sst_footer_write(&handles, out.data() + len, 24, &footer);
    return out;
}

/* Writes a table file entry by entry: the bytes that write() makes of the same entries, passed to a sink as they
   are finished, a frame at a time. Kept are the entries of one block, and of the blocks before it a handle for
   each and, where there is a filter, a hash of 8 bytes for each entry.

       sst::writer writer([&](sst::bytes frame) { file.write(...); });
       for (...) writer.add(key, seqno, value);
       writer.finish(); */
template <std::invocable<bytes> Sink> class writer {
  public:
    explicit writer(Sink sink, size_t block_size = 4096, const sst_run_config &config = {0, 1, 10, 16, 1, SST_XXH3})
        : sink_(std::move(sink)), block_size_(block_size), config_(config), out_(block_size + 4096) {}

    /* Adds an entry. Throws error: SST_OUT_OF_ORDER where it sorts before the one added last, SST_BAD_ARGUMENT
       where it is no entry; the table goes on without it. After another error, or one that the sink throws, the
       table can't be finished. */
    void add(bytes key, uint64_t seqno, bytes value, sst_value_type type = SST_VALUE) {
        if (key.empty() || key.size() > 65535 || value.size() > UINT32_MAX) throw error(SST_BAD_ARGUMENT);
        if (!rows_.empty() || !ends_.empty()) {
            auto [last, last_seqno] = rows_.empty() ? std::pair(bytes(ends_.back().key), ends_.back().seqno)
                                                    : std::pair(key_of(rows_.back()), rows_.back().seqno);
            int order = entry{key, {}, {}, 0, SST_VALUE}.compare(last);
            if (order < 0 || (order == 0 && seqno > last_seqno)) throw error(SST_OUT_OF_ORDER);
        }
        if (!rows_.empty() && held_.size() >= block_size_) close_block();
        rows_.push_back({held_.size(), key.size(), value.size(), seqno, type});
        held_.insert(held_.end(), key.begin(), key.end());
        held_.insert(held_.end(), value.begin(), value.end());
    }

    /* Ends the table: passes on the last block, the index, the filter and the footer. Throws error:
       SST_BAD_ARGUMENT where no entry was added. */
    void finish() {
        close_block();
        std::vector<sst_keyed_handle> handles;
        for (const end &end : ends_)
            handles.push_back({bytes(end.key).lent(), end.key.size(), end.seqno, end.offset, end.size});
        sst_run_handles all;
        uint64_t none = 0;
        pass_on([&](uint8_t *out, size_t cap, size_t *len) {
            return sst_run_end_write(handles.data(), handles.size(), hashes_.empty() ? &none : hashes_.data(),
                                     hashes_.size(), &config_, out, cap, len, &all);
        });
        pass_on([&](uint8_t *out, size_t cap, size_t *len) { return sst_footer_write(&all, out, cap, len); });
    }

  private:
    struct row {
        size_t offset, key_len, value_len; /* in held_ */
        uint64_t seqno;
        sst_value_type type;
    };
    struct end {
        std::string key;
        uint64_t seqno, offset;
        uint32_t size;
    };

    bytes key_of(const row &row) const { return bytes(std::span(held_).subspan(row.offset, row.key_len)); }
    /* Passes on what a call writes that says how much capacity it needs. Returns its length. */
    template <class Call> size_t pass_on(Call call) {
        size_t len = 0;
        uint32_t status = call(out_.data(), out_.size(), &len);
        if (status == SST_NO_ROOM) out_.resize(len), status = call(out_.data(), out_.size(), &len);
        if (status) throw error(status);
        sink_(bytes(std::span(out_).first(len)));
        return len;
    }
    void close_block() {
        if (rows_.empty()) throw error(SST_BAD_ARGUMENT);
        entries_.clear();
        for (const row &row : rows_)
            entries_.push_back({held_.data() + row.offset, row.key_len, held_.data() + row.offset + row.key_len,
                                row.value_len, row.seqno, static_cast<uint8_t>(row.type)});
        size_t known = hashes_.size();
        uint64_t none = 0;
        if (config_.bits_per_key > 0) hashes_.resize(known + rows_.size());
        size_t size = pass_on([&](uint8_t *out, size_t cap, size_t *len) {
            return sst_run_block_write(entries_.data(), entries_.size(), &config_, out, cap, len,
                                       hashes_.empty() ? &none : hashes_.data() + known, hashes_.size() - known);
        });
        ends_.push_back({key_of(rows_.back()).text(), rows_.back().seqno, len_, static_cast<uint32_t>(size)});
        len_ += size;
        rows_.clear(), held_.clear();
    }

    Sink sink_;
    size_t block_size_;
    sst_run_config config_;
    std::vector<uint8_t> held_; /* the keys and values of the block's entries */
    std::vector<row> rows_;
    std::vector<sst_entry> entries_;
    std::vector<end> ends_;
    std::vector<uint64_t> hashes_;
    std::vector<uint8_t> out_;
    uint64_t len_ = 0;
};

} // namespace sst
