/* copy IN OUT: reads the table file IN, which `sst pack` wrote, and writes its entries as the table file OUT. */
#include "sst.hpp"

#include <fstream>
#include <iterator>

int main(int argc, char **argv) {
    if (argc != 3) return 2;
    std::ifstream in(argv[1], std::ios::binary);
    const std::vector<uint8_t> file{std::istreambuf_iterator<char>(in), {}};
    const auto table = sst::table::check(sst::bytes(std::span<const uint8_t>(file)), SST_POLY31);
    std::ofstream out(argv[2], std::ios::binary);
    sst::writer writer([&](sst::bytes part) { out.write(reinterpret_cast<const char *>(part.data()), part.size()); });
    for (const auto &entry : table) writer.add(entry.key(), entry.seqno, entry.value, entry.type);
    writer.finish();
    return out.flush() ? 0 : 1;
}
