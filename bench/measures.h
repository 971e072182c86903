// What is measured, and that both sides answer the same before they are timed.
#pragma once

#include <functional>
#include <vector>

#include "timing.h"

namespace bench {

enum class Form { kQuick, kFull };

// Makes each group of measures in turn, of one block, of keys and numbers, or of a filter, and hands each of its
// measures on.
// Ends the process with a message where answers differ.
void ForEachMeasure(Form form, const std::function<void(const Measure&)>& take);

}  // namespace bench
