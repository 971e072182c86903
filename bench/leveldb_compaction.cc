// Writes entries into a LevelDB in several parts whose keys are interleaved, compacts it whole, and prints the
// milliseconds of both and the greatest memory.
//
//   leveldb_compaction DIR COUNT PARTS
#include <leveldb/db.h>
#include <leveldb/filter_policy.h>
#include <leveldb/write_batch.h>
#include <sys/resource.h>

#include <chrono>
#include <cstdio>
#include <cstdlib>
#include <string>

namespace {

constexpr size_t kPerBatch = 1000;

double Milliseconds(std::chrono::steady_clock::time_point from) {
  return std::chrono::duration<double, std::milli>(std::chrono::steady_clock::now() - from).count();
}

void Must(const leveldb::Status& status) {
  if (status.ok()) return;
  fprintf(stderr, "leveldb_compaction: %s\n", status.ToString().c_str());
  exit(1);
}

std::string KeyOf(size_t i) {
  char key[32];
  snprintf(key, sizeof key, "key%013zu", i);
  return key;
}

}  // namespace

int main(int argc, char** argv) {
  if (argc != 4) {
    fprintf(stderr, "usage: leveldb_compaction DIR COUNT PARTS\n");
    return 2;
  }
  const size_t count = strtoull(argv[2], nullptr, 10);
  const size_t parts = strtoull(argv[3], nullptr, 10);
  leveldb::Options options;
  options.create_if_missing = true;
  options.compression = leveldb::kNoCompression;
  options.filter_policy = leveldb::NewBloomFilterPolicy(10);
  options.write_buffer_size = 16 << 20;
  leveldb::DB* db = nullptr;
  Must(leveldb::DB::Open(options, argv[1], &db));
  const auto start = std::chrono::steady_clock::now();
  for (size_t part = 0; part < parts; part++) {
    leveldb::WriteBatch batch;
    size_t held = 0;
    for (size_t i = part; i < count; i += parts) {
      batch.Put(KeyOf(i), std::string(32, 'v'));
      if (++held == kPerBatch) {
        Must(db->Write(leveldb::WriteOptions(), &batch));
        batch.Clear();
        held = 0;
      }
    }
    Must(db->Write(leveldb::WriteOptions(), &batch));
  }
  const double written = Milliseconds(start);
  const auto compacting = std::chrono::steady_clock::now();
  db->CompactRange(nullptr, nullptr);
  const double compacted = Milliseconds(compacting);
  delete db;
  rusage usage;
  getrusage(RUSAGE_SELF, &usage);
  printf("LevelDB: written in %.0f ms, CompactRange %.0f ms, processor %.0f ms, %.0f MB\n", written, compacted,
         1e3 * (usage.ru_utime.tv_sec + usage.ru_stime.tv_sec) + 1e-3 * (usage.ru_utime.tv_usec + usage.ru_stime.tv_usec),
         usage.ru_maxrss / 1024.0);
  return 0;
}
