#include "chosen.hpp"

#include <algorithm>
#include <map>

Region *median_of_heaviest(const std::vector<Region *> &regions) {
  std::map<const void *, int64_t> works;
  for (const Region *region : regions) works[region->code] += work_of(*region);
  auto is_lighter = [](auto &a, auto &b) { return a.second < b.second; };
  auto heaviest = std::max_element(works.begin(), works.end(), is_lighter);
  std::vector<Region *> there;
  for (Region *region : regions)
    if (region->code == heaviest->first) there.push_back(region);
  std::stable_sort(there.begin(), there.end(), [](auto *a, auto *b) { return work_of(*a) < work_of(*b); });
  return there.empty() ? nullptr : there[(there.size() - 1) / 2];
}
