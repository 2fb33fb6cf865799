// Which region is written, where one is asked for.
#pragma once
#include <vector>

#include "run.hpp"

inline int64_t work_of(const Region &region) { return region.in_parts + region.in_tasks; }

// At the place with the most work the one of median work; none of none.
Region *median_of_heaviest(const std::vector<Region *> &regions);
