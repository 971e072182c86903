// Prints the tables: `table TIMES ALLOCATIONS`. TIMES has the lines of all processes.
#include <algorithm>
#include <cmath>
#include <cstdio>
#include <fstream>
#include <map>
#include <sstream>
#include <string>
#include <vector>

namespace {

double MedianOf(std::vector<double> all) {
  std::sort(all.begin(), all.end());
  return (all[(all.size() - 1) / 2] + all[all.size() / 2]) / 2;
}

double GeometricMeanOf(const std::vector<double>& all) {
  double sum = 0;
  for (double one : all) sum += std::log(one);
  return std::exp(sum / double(all.size()));
}

// One measure in all processes: nanoseconds of both sides, and their ratio in each process.
struct Row {
  std::string block;
  std::string operation;
  std::vector<double> ours, other, ratios;
};

std::vector<Row> RowsIn(const char* path) {
  std::vector<Row> rows;
  std::ifstream file(path);
  std::string line;
  while (std::getline(file, line)) {
    std::istringstream words(line);
    std::string block, operation, other;
    double ours;
    words >> block >> operation >> ours >> other;
    auto row = std::find_if(rows.begin(), rows.end(), [&](const Row& one) {
      return one.block == block && one.operation == operation;
    });
    if (row == rows.end()) row = rows.insert(row, Row{block, operation, {}, {}, {}});
    row->ours.push_back(ours);
    if (other == "-") continue;
    row->other.push_back(std::stod(other));
    row->ratios.push_back(ours / std::stod(other));
  }
  return rows;
}

void PrintLines(const std::vector<Row>& rows) {
  printf("%-18s %-15s %12s %12s   %s\n", "nanoseconds", "", "library", "LevelDB", "ratio");
  for (const Row& row : rows) {
    printf("%-18s %-15s %12.2f", row.block.c_str(), row.operation.c_str(), MedianOf(row.ours));
    if (row.ratios.empty()) {
      printf(" %12s   -\n", "-");
      continue;
    }
    const auto [least, greatest] = std::minmax_element(row.ratios.begin(), row.ratios.end());
    printf(" %12.2f   %.2f [%.2f..%.2f]\n", MedianOf(row.other), MedianOf(row.ratios), *least,
           *greatest);
  }
}

// The measures of one operation, of data blocks those of one interval.
struct Group {
  std::string operation;
  std::string interval;
  std::vector<double> ours, other, ratios;
  double least = INFINITY, greatest = 0;
};

// The interval of a block, and whether its keys begin alike.
std::string IntervalOf(const std::string& block) {
  const size_t at = block.find(".r");
  if (at == std::string::npos) return "";
  return block.substr(at + 2) + (block[0] == 's' ? ", spread keys" : "");
}

std::vector<Group> GroupsOf(const std::vector<Row>& rows) {
  std::vector<Group> groups;
  for (const Row& row : rows) {
    const std::string interval = IntervalOf(row.block);
    auto group = std::find_if(groups.begin(), groups.end(), [&](const Group& one) {
      return one.operation == row.operation && one.interval == interval;
    });
    if (group == groups.end()) group = groups.insert(group, Group{row.operation, interval, {}, {}, {}});
    group->ours.push_back(MedianOf(row.ours));
    if (row.ratios.empty()) continue;
    group->other.push_back(MedianOf(row.other));
    group->ratios.push_back(MedianOf(row.ratios));
    for (double ratio : row.ratios) {
      group->least = std::min(group->least, ratio);
      group->greatest = std::max(group->greatest, ratio);
    }
  }
  return groups;
}

// What one operation is.
const std::map<std::string, std::string> kTitles = {
    {"encode", "encode, an entry"},
    {"walk", "walk, an entry"},
    {"walk_back", "walk from the back, an entry"},
    {"materialize", "walk and make entries, an entry"},
    {"iter", "make an iterator, take one item"},
    {"get_hit", "read a key that is there"},
    {"get_miss", "read a key that is not"},
    {"seek_next", "make an iterator, seek a key, take one item"},
    {"get_hit_table", "read a key that is there, with a table"},
    {"get_miss_table", "read a key that is not, with a table"},
    {"seek_next_table", "iterator, seek, one item, with a table"},
    {"make_table", "make the table, a head"},
    {"compare", "compare two keys"},
    {"shared", "shared prefix of two keys"},
    {"hash", "hash a key"},
    {"varint", "decode a varint"},
    {"filter_build", "build a filter, a key"},
    {"filter_hit", "ask a filter for a key that is there"},
    {"filter_miss", "ask a filter for a key that is not"},
};

std::string TitleOf(const std::string& operation) {
  const auto title = kTitles.find(operation);
  return title == kTitles.end() ? operation : title->second;
}

void PrintMeans(std::vector<Group> groups) {
  std::stable_sort(groups.begin(), groups.end(), [](const Group& a, const Group& b) {
    const auto place = [](const Group& one) {
      const char* order[] = {"encode",   "walk",      "walk_back", "materialize",
                             "iter",     "get_hit",   "get_miss",  "seek_next",
                             "get_hit_table", "get_miss_table", "seek_next_table",
                             "make_table", "compare",  "shared",    "hash",      "varint",
                             "filter_build", "filter_hit", "filter_miss"};
      return std::find(std::begin(order), std::end(order), one.operation) - std::begin(order);
    };
    return place(a) < place(b);
  });
  printf("| Operation | Interval | Inputs | Library, ns | LevelDB, ns | Ratio | Least to greatest |\n");
  printf("|---|---|---|---|---|---|---|\n");
  for (const Group& group : groups) {
    const std::string interval = group.interval.empty() ? "-" : group.interval;
    printf("| %s | %s | %zu | %.1f |", TitleOf(group.operation).c_str(), interval.c_str(),
           group.ours.size(), GeometricMeanOf(group.ours));
    if (group.ratios.empty()) {
      printf(" - | - | - |\n");
      continue;
    }
    printf(" %.1f | %.2f | %.2f to %.2f |\n", GeometricMeanOf(group.other),
           GeometricMeanOf(group.ratios), group.least, group.greatest);
  }
}

// What allocations are counted of.
const std::map<std::string, std::string> kUnits = {
    {"encode", "encode, a block"},
    {"walk", "walk, a block"},
    {"walk_back", "walk from the back, a block"},
    {"materialize", "make entries, an entry"},
    {"iter", "make an iterator, take one item"},
    {"get_hit", "read a key that is there"},
    {"get_miss", "read a key that is not"},
    {"seek_next", "make an iterator, seek a key, take one item"},
    {"get_hit_table", "read a key that is there, with a table"},
    {"get_miss_table", "read a key that is not, with a table"},
    {"seek_next_table", "iterator, seek, one item, with a table"},
};

// Three blocks that differ in interval or size.
bool IsShown(const std::string& block) {
  return block == "k16.v32.4K.r1" || block == "k16.v32.4K.r16" || block == "k16.v32.64K.r16";
}

void PrintAllocations(const char* path) {
  printf("| Block | Operation | Library, first turn | Later turns | Bytes | LevelDB, later turns | Bytes |\n");
  printf("|---|---|---|---|---|---|---|\n");
  std::ifstream file(path);
  std::string block, operation, first, later, bytes, other, other_bytes;
  while (file >> block >> operation >> first >> later >> bytes >> other >> other_bytes) {
    if (!IsShown(block)) continue;
    printf("| %s | %s | %s | %s | %s | %s | %s |\n", block.c_str(), kUnits.at(operation).c_str(),
           first.c_str(), later.c_str(), bytes.c_str(), other.c_str(), other_bytes.c_str());
  }
}

}  // namespace

int main(int argc, char** argv) {
  if (argc != 3) {
    fprintf(stderr, "usage: %s TIMES ALLOCATIONS\n", argv[0]);
    return 2;
  }
  const std::vector<Row> rows = RowsIn(argv[1]);
  PrintLines(rows);
  printf("\n");
  PrintMeans(GroupsOf(rows));
  printf("\n");
  PrintAllocations(argv[2]);
  return 0;
}
