// Times of two sides of a measure, in turn, by the processor time of the thread.
#pragma once

#include <cstdint>
#include <functional>
#include <string>
#include <vector>

namespace bench {

// Takes a value as used, so that the work behind it is not left out.
template <class T>
inline void Keep(T const& value) {
  asm volatile("" : : "r,m"(value) : "memory");
}

// An operation, repeated; returns a sum of what it read or the length of what it wrote.
using Repeated = std::function<uint64_t(uint64_t times)>;

// One measure: how many operations a turn has, and both sides. The other side may be absent.
struct Measure {
  std::string name;
  size_t operations;
  Repeated ours;
  Repeated other;
};

struct Sampling {
  double sample_seconds = 0.003;
  int samples = 9;
};

// Nanoseconds an operation of each side, the median of the samples, below 0 for an absent side; and the median of
// their ratios, each of two samples that were taken one after the other.
struct Times {
  double ours;
  double other;
  double ratio;
};

double MedianOf(std::vector<double> all);

Times TimesOf(const Measure& measure, const Sampling& sampling);

// The samples of each of so many calls, with so many operations a turn: the first of each call are taken one after the
// other, then the second, and so on.
std::vector<std::vector<double>> SamplesInTurn(const std::vector<Repeated>& calls, size_t operations,
                                               const Sampling& sampling);

// Runs on this core alone from now on, or on the last one allowed for a negative number. Answers the core.
int PinToCore(int core);

}  // namespace bench
