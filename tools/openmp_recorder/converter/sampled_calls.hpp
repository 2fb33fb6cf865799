// What segments of the text ran, by samples of their threads.
#pragma once
#include <string>

#include "logged_samples.hpp"
#include "off_times.hpp"
#include "source.hpp"

// `SEGMENT ran MICROSECONDS main;sort;compare` of each segment and list of calls, outermost first, or `slept`. Those of
// a chunk are the first piece's. A function of the system has its library behind it, as in `read@libc.so.6`.
std::string sampled_lines(const Region &region, OffTimes &times, const Stacks &stacks, Places &places);

// The names of a list of calls, outermost first: what runs between the runtime's code, or on top of it.
std::string named_calls(const Calls &calls, const Places &places);
