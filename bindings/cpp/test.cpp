/* Tests of sst.hpp against a sorted list. Prints what it counts; ends with 1 where something is otherwise. */
#include "sst.hpp"

#include <cstdio>
#include <random>
#include <tuple>

namespace {
struct row {
    std::string key;
    uint64_t seqno;
    sst_value_type type;
    std::string value;
};
size_t failed = 0;

void demand(bool holds, const char *what) {
    if (!holds) failed++, std::printf("not so: %s\n", what);
}

bool is(const sst::entry &entry, const row &row) {
    return entry.key() == row.key && entry.seqno == row.seqno && entry.type == row.type &&
           entry.value.text() == row.value && entry.compare(row.key) == 0;
}

std::vector<row> rows_of(unsigned seed, size_t count) {
    std::mt19937 random(seed);
    std::vector<row> rows;
    for (size_t i = 0; i < count; i++) {
        std::string key = std::string(random() % 2 ? "common/" : "a") + std::to_string(random() % 200);
        bool dead = random() % 5 == 0;
        rows.push_back({key, random() % 50, dead ? SST_TOMBSTONE : SST_VALUE, dead ? "" : std::string(random() % 40, 'v')});
    }
    auto order = [](const row &a, const row &b) { return std::tie(a.key, b.seqno) < std::tie(b.key, a.seqno); };
    std::stable_sort(rows.begin(), rows.end(), order);
    return rows;
}

std::vector<uint8_t> file_of(const std::vector<row> &rows, size_t block_size, const sst_run_config &config) {
    std::vector<sst_entry> entries;
    for (const row &row : rows) entries.push_back(sst::given(row.key, row.seqno, row.value, row.type));
    return sst::write(entries, block_size, config);
}

/* A sink that appends to a file in memory, and counts what it is passed. */
struct memory {
    std::vector<uint8_t> file;
    size_t pieces = 0;
    auto sink() {
        return [this](sst::bytes piece) { file.insert(file.end(), piece.begin(), piece.end()), pieces++; };
    }
};

std::vector<uint8_t> in_pieces(const std::vector<row> &rows, size_t block_size, const sst_run_config &config) {
    memory memory;
    sst::writer writer(memory.sink(), block_size, config);
    for (const row &row : rows) writer.add(row.key, row.seqno, row.value, row.type);
    writer.finish();
    return memory.file;
}

/* A large table, and one whose frames do not fit what the writer begins with. */
void check_large() {
    std::vector<row> rows;
    for (size_t i = 0; i < 100000; i++) {
        char key[24];
        std::snprintf(key, sizeof key, "user/%08zu", i / 2);
        rows.push_back({key, i % 2 ? 3u : 9u, SST_VALUE, std::string(i % 50, 'a' + i % 26)});
    }
    for (sst_run_config config : {sst_run_config{0, 1, 10, 16, 1, SST_XXH3}, sst_run_config{3, 4, 0, 8, 4, SST_POLY31}}) {
        auto file = file_of(rows, 4096, config);
        demand(in_pieces(rows, 4096, config) == file, "100,000 entries in pieces are the same");
        auto table = sst::table::check(sst::bytes(std::span<const uint8_t>(file)), static_cast<sst_hash>(config.hash));
        demand(table.summary().entries == rows.size(), "100,000 entries are counted");
        demand(std::ranges::equal(table, rows, is), "100,000 entries are read back");
    }
    std::vector<row> wide{{"a", 1, SST_VALUE, std::string(100000, 'x')}, {"b", 1, SST_VALUE, std::string(7, 'y')}};
    demand(in_pieces(wide, 1, {0, 1, 10, 16, 1, SST_XXH3}) == file_of(wide, 1, {0, 1, 10, 16, 1, SST_XXH3}), "a long value is written");
    memory memory;
    sst::writer writer(memory.sink(), 1000);
    for (const row &row : rows) writer.add(row.key, row.seqno, row.value, row.type);
    demand(memory.pieces > 1000, "blocks are passed on while entries are added");
}

/* Whether a call throws this status. */
template <class Call> bool throws(uint32_t status, Call call) {
    try {
        call();
    } catch (const sst::error &met) {
        return met.status == status;
    }
    return false;
}

/* Scans a range from the front, from the back, and from both ends in turn, in batches of so many. */
void check_scan(const sst::table &table, const std::vector<row> &rows, const std::string &from, const std::string &to,
                std::optional<uint64_t> below, size_t batch) {
    std::vector<row> within, fronts, backs;
    for (const row &r : rows)
        if (r.key >= from && r.key < to && (!below || r.seqno < *below)) within.push_back(r);
    size_t next = 0;
    for (const sst::entry &entry : table.scan(from, to, below, batch))
        demand(next < within.size() && is(entry, within[next++]), "a scan gives the next entry");
    demand(next == within.size(), "a scan gives all entries");
    size_t left = within.size();
    for (auto scan = table.scan(from, to, below, batch); auto entry = scan.next_back();)
        demand(left > 0 && is(*entry, within[--left]), "a scan from the back gives the last entry");
    demand(left == 0, "a scan from the back gives all entries");
    auto scan = table.scan(from, to, below, batch);
    size_t first = 0, last = within.size();
    while (first < last) {
        auto entry = (first + last) % 2 ? scan.next() : scan.next_back();
        demand(entry && is(*entry, within[(first + last) % 2 ? first : last - 1]), "a scan from both ends");
        (first + last) % 2 ? ++first : --last;
    }
    demand(!scan.next() && !scan.next_back(), "and nothing behind");
}

void check_table(const sst::table &table, const std::vector<row> &rows) {
    demand(std::ranges::equal(table, rows, is), "a walk gives all entries");
    demand(std::equal(table.rbegin(), table.rend(), rows.rbegin(), rows.rend(), is), "a walk back gives all entries");
    sst::open_table opened(table);
    for (size_t i = 0; i < rows.size(); i += 5) {
        auto first = std::ranges::find_if(rows, [&](const row &r) { return r.key >= rows[i].key; });
        demand(std::equal(table.lower_bound(rows[i].key), table.end(), first, rows.end(), is), "entries from a key on");
        auto newest = std::ranges::find_if(rows, [&](const row &r) { return r.key == rows[i].key && r.seqno < 25; });
        auto found = table.get(rows[i].key, 25);
        demand(newest == rows.end() ? !found : found && is(*found, *newest), "the newest version below a number");
        found = opened.get(rows[i].key, 25);
        demand(newest == rows.end() ? !found : found && is(*found, *newest), "the same in a table that was opened");
        check_scan(table, rows, rows[i].key, rows[i * 7 % rows.size()].key, i % 2 ? std::optional<uint64_t>(25) : std::nullopt, 1 + i % 9);
    }
    demand(table.lower_bound("zz") == table.end() && !table.get("zz") && !opened.get("zz"), "nothing above the last key");
    demand(std::equal(opened->begin(), opened->end(), rows.begin(), rows.end(), is), "a table that was opened is the table");
    demand(std::equal(table.lower_bound(""), table.end(), rows.begin(), rows.end(), is), "all from the empty key on");
    check_scan(table, rows, "", "\xff", {}, 64);
}
/* The rows of tables, the newest table first, that a compaction has to leave in a range of keys. */
std::vector<row> staying(const std::vector<std::vector<row>> &tables, const std::vector<uint64_t> &snapshots, bool is_bottom,
                         const std::string &from, const std::string &to) {
    std::vector<row> all, left;
    for (const auto &rows : tables)
        for (const row &r : rows)
            if (r.key >= from && r.key < to) all.push_back(r);
    std::ranges::stable_sort(all, [](const row &a, const row &b) { return std::tie(a.key, b.seqno) < std::tie(b.key, a.seqno); });
    for (size_t i = 0; i < all.size(); i++) {
        const row &r = all[i];
        bool hidden = true, seen = false, needed = false;
        for (uint64_t snapshot : snapshots) {
            if (r.seqno >= snapshot) continue;
            seen = true;
            auto newer = [&](const row &n) { return n.key == r.key && n.seqno < snapshot; };
            hidden &= std::any_of(all.begin(), all.begin() + static_cast<ptrdiff_t>(i), newer);
        }
        for (size_t d = i + 1; d < all.size(); d++)
            for (uint64_t snapshot : snapshots)
                needed |= all[d].key == r.key && all[d].seqno < snapshot && snapshot <= r.seqno;
        bool goes = is_bottom && r.type == SST_TOMBSTONE && !needed;
        if (!seen || (!hidden && !goes)) left.push_back(r);
    }
    return left;
}

/* Four tables by either hash function, of which the last one has the entries of the first with other values; and
   snapshots. */
struct several {
    std::vector<std::vector<row>> rows;
    std::vector<std::vector<uint8_t>> files;
    std::vector<sst::table> tables;
    std::vector<uint64_t> snapshots;

    explicit several(unsigned seed) {
        for (unsigned n = 0; n < 4; n++) {
            uint16_t hash = (seed + n) % 2;
            rows.push_back(rows_of(seed * 3 + n % 3, 1 + seed * 7));
            if (n == 3)
                for (row &r : rows.back()) r.type = SST_VALUE, r.value = "w";
            files.push_back(file_of(rows.back(), 100, {n, 2, 10, 4, 1, hash}));
            sst::bytes lent(std::span<const uint8_t>(files.back()));
            tables.push_back(sst::table::check(lent, static_cast<sst_hash>(hash)));
        }
        std::mt19937 random(seed);
        for (unsigned n = random() % 5; n > 0; n--) snapshots.push_back(random() % 55);
    }
};

/* Compactions of several tables. */
void check_compactions() {
    for (unsigned seed = 0; seed < 60; seed++) {
        const several several(seed);
        const auto &[rows, files, tables, snapshots] = several;
        bool is_bottom = seed % 2;
        std::string from = seed % 3 ? rows[0][0].key : "", to = seed % 5 ? rows[1].back().key : "\xff";
        sst_run_config config{1, 2, 10, 8, 2, static_cast<uint16_t>(seed / 2 % 2)};
        size_t size = seed % 4 ? size_t(1) << 30 : 1;
        auto left = staying(rows, snapshots, is_bottom, from, to);
        auto made = sst::compact(tables, snapshots, is_bottom, from, to, size, config);
        demand(left.empty() ? !made : made && *made == file_of(left, size, config), "a compaction leaves what has to stay");
    }
    demand(!sst::compact({}, {}), "of no table nothing stays");
    demand(throws(SST_BAD_ARGUMENT, [] { sst::compact({}, {}, false, {}, {}, 1, {0, 0, 0, 1, 1, SST_XXH3}); }), "a denominator of 0");
}

/* Merges of several tables. */
void check_merges() {
    for (unsigned seed = 0; seed < 60; seed++) {
        const several several(seed);
        const auto &[rows, files, tables, snapshots] = several;
        std::optional<uint64_t> below;
        if (seed % 2) below = 25;
        std::string from = seed % 3 ? rows[0][0].key : "", to = seed % 5 ? rows[1].back().key : "\xff";
        auto left = staying(rows, snapshots, false, from, to);
        std::erase_if(left, [&](const row &r) { return below && r.seqno >= *below; });
        size_t next = 0;
        for (const sst::entry &entry : sst::merge(tables, from, to, below, snapshots, 1 + seed * 3))
            demand(next < left.size() && is(entry, left[next++]), "a merge gives the next entry");
        demand(next == left.size(), "a merge gives all entries");
        size_t all = 0, counted = 0;
        for (const auto &list : rows) all += list.size();
        auto merge = sst::merge(tables);
        while (merge.next()) counted++;
        demand(counted == all && !merge.next(), "a merge without bounds gives all entries");
    }
    demand(!sst::merge({}).next(), "of no table a merge gives nothing");
}

/* Tables of one block, of about as many entries as an iterator reads of a block at a time. */
void check_one_block() {
    for (size_t count : {1, 63, 64, 65, 127, 128, 129, 1000}) {
        auto rows = rows_of(7, count);
        auto file = file_of(rows, 1 << 20, {0, 1, 10, 16, 1, SST_XXH3});
        auto table = sst::table::check(sst::bytes(std::span<const uint8_t>(file)));
        demand(table.summary().blocks == 1, "all in one block");
        check_table(table, rows);
    }
}
} // namespace

int main() {
    static_assert(std::bidirectional_iterator<sst::table::iterator>);
    static_assert(std::ranges::input_range<sst::table::range> && std::ranges::input_range<sst::merge>);
    size_t tables = 0;
    for (unsigned seed = 0; seed < 40; seed++) {
        auto rows = rows_of(seed, 1 + seed * 10);
        sst_hash hash = seed / 2 % 2 ? SST_POLY31 : SST_XXH3, other = hash == SST_XXH3 ? SST_POLY31 : SST_XXH3;
        sst_run_config config{seed % 3, 2, seed % 2 * 10, static_cast<uint8_t>(1 + seed % 17), static_cast<uint8_t>(1 + seed % 3),
                              static_cast<uint16_t>(hash)};
        auto file = file_of(rows, seed % 3 ? 100 : 1, config);
        demand(in_pieces(rows, seed % 3 ? 100 : 1, config) == file, "a table in pieces is the same");
        sst::bytes lent(std::span<const uint8_t>{file});
        auto table = sst::table::check(lent, hash);
        demand(table.summary().entries == rows.size(), "the count of entries");
        check_table(table, rows);
        check_table(sst::table::trusted(lent, hash), rows);
        demand(throws(SST_CHECKSUM_MISMATCH, [&] { sst::table::check(lent, other); }), "another hash function's checksums");
        for (size_t at : {size_t(0), file.size() / 2, file.size() - 25}) {
            file[at] ^= 1;
            try {
                sst::table::check(lent, hash);
                demand(false, "a changed byte is refused");
            } catch (const sst::error &met) {
                demand(met.end && met.end->offset <= at && at < met.end->offset + met.end->size, "by its frame");
            }
            file[at] ^= 1;
        }
        tables += 2;
    }
    for (auto bad : {std::vector<row>{}, {{"b", 1, SST_VALUE, ""}, {"a", 1, SST_VALUE, ""}}, {{"", 1, SST_VALUE, ""}}}) {
        demand(throws(SST_BAD_ARGUMENT, [&] { file_of(bad, 1, {0, 1, 0, 1, 1, SST_XXH3}); }), "such entries are a bad argument");
    }
    demand(throws(SST_BAD_ARGUMENT, [] { file_of({{"a", 1, SST_VALUE, ""}}, 1, {0, 1, 0, 1, 1, 2}); }), "2 is no hash function");
    memory memory, empty;
    sst::writer writer(memory.sink(), 1), none(empty.sink());
    demand(throws(SST_BAD_ARGUMENT, [&] { none.finish(); }), "no entries are a bad argument");
    demand(throws(SST_BAD_ARGUMENT, [&] { writer.add("", 1, "v"); }), "no key is a bad argument");
    writer.add("b", 5, "v");
    demand(throws(SST_OUT_OF_ORDER, [&] { writer.add("a", 9, "v"); }), "a lower key is out of order");
    demand(throws(SST_OUT_OF_ORDER, [&] { writer.add("b", 6, "v"); }), "a newer version is out of order");
    writer.add("b", 5, "w");
    writer.finish();
    demand(sst::table::check(sst::bytes(std::span<const uint8_t>(memory.file))).summary().entries == 2, "two entries");
    check_one_block();
    check_compactions();
    check_merges();
    check_large();
    std::printf("%zu tables, %zu not so\n", tables, failed);
    return failed > 0;
}
