#include "timing.h"

#include <sched.h>
#include <time.h>

#include <algorithm>
#include <cmath>
#include <vector>

namespace bench {

namespace {

double Now() {
  timespec now;
  clock_gettime(CLOCK_THREAD_CPUTIME_ID, &now);
  return double(now.tv_sec) + double(now.tv_nsec) * 1e-9;
}

double SecondsOf(const Repeated& call, uint64_t times) {
  double start = Now();
  Keep(call(times));
  return Now() - start;
}

// One side, and how many turns fill a sample.
struct Side {
  const Repeated* call;
  explicit Side(const Repeated* call) : call(call) {}

  uint64_t turns = 1;
  std::vector<double> samples;

  // The making of the input, which a call without turns does, is taken off.
  double SecondsOfTurns() const { return SecondsOf(*call, turns) - SecondsOf(*call, 0); }

  void Calibrate(double wanted) {
    for (int tries = 0; tries < 12; tries++) {
      double seconds = SecondsOfTurns();
      if (seconds >= 0.7 * wanted) return;
      double factor = seconds > 1e-6 ? wanted / seconds : 64;
      turns = uint64_t(std::ceil(double(turns) * std::clamp(factor, 1.5, 64.0)));
    }
  }
};

}  // namespace

double MedianOf(std::vector<double> all) {
  std::sort(all.begin(), all.end());
  return (all[(all.size() - 1) / 2] + all[all.size() / 2]) / 2;
}

std::vector<std::vector<double>> SamplesInTurn(const std::vector<Repeated>& calls, size_t operations,
                                               const Sampling& sampling) {
  std::vector<Side> sides;
  for (const Repeated& call : calls) sides.emplace_back(&call);
  for (Side& side : sides) side.Calibrate(sampling.sample_seconds);
  for (int i = 0; i < sampling.samples; i++) {
    for (Side& side : sides) {
      side.samples.push_back(side.SecondsOfTurns() * 1e9 / (double(side.turns) * double(operations)));
    }
  }
  std::vector<std::vector<double>> samples;
  for (const Side& side : sides) samples.push_back(side.samples);
  return samples;
}

Times TimesOf(const Measure& measure, const Sampling& sampling) {
  std::vector<Repeated> calls(1, measure.ours);
  if (measure.other) calls.push_back(measure.other);
  const auto samples = SamplesInTurn(calls, measure.operations, sampling);
  if (!measure.other) return {MedianOf(samples[0]), -1, -1};
  std::vector<double> ratios;
  for (size_t i = 0; i < samples[0].size(); i++) ratios.push_back(samples[0][i] / samples[1][i]);
  return {MedianOf(samples[0]), MedianOf(samples[1]), MedianOf(ratios)};
}

int PinToCore(int core) {
  cpu_set_t allowed;
  sched_getaffinity(0, sizeof allowed, &allowed);
  if (core < 0) {
    for (int i = 0; i < CPU_SETSIZE; i++) {
      if (CPU_ISSET(i, &allowed)) core = i;
    }
  }
  cpu_set_t one;
  CPU_ZERO(&one);
  CPU_SET(core, &one);
  return sched_setaffinity(0, sizeof one, &one) == 0 ? core : -1;
}

}  // namespace bench
