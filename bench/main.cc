// The driver: `driver FORM MS SAMPLES CORE` prints a line a measure, with nanoseconds an operation of the library and
// of LevelDB. FORM is `quick` or `full`.
#include <cstdio>
#include <cstdlib>
#include <cstring>

#include "measures.h"
#include "timing.h"

int main(int argc, char** argv) {
  using namespace bench;
  if (argc != 5) {
    fprintf(stderr, "usage: %s quick|full MS SAMPLES CORE\n", argv[0]);
    return 2;
  }
  const Form form = strcmp(argv[1], "full") == 0 ? Form::kFull : Form::kQuick;
  const Sampling sampling{atof(argv[2]) * 1e-3, atoi(argv[3])};
  PinToCore(atoi(argv[4]));
  ForEachMeasure(form, [&](const Measure& measure) {
    const Times times = TimesOf(measure, sampling);
    printf("%s %.3f ", measure.name.c_str(), times.ours);
    if (measure.other) printf("%.3f\n", times.other);
    else printf("-\n");
  });
  return 0;
}
