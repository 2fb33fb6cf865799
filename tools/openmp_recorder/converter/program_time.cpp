#include "program_time.hpp"

#include <algorithm>
#include <utility>

int64_t in_code(const Region &region) {
  return region.of_program ? std::max<int64_t>(region.cost - region.in_own_regions, 0) : 0;
}

int64_t in_code(const Run &run) {
  int64_t sum = 0;
  for (auto &[number, region] : run.regions) sum += in_code(*region);
  for (const RegionRow &row : run.rows) sum += run.regions.count(row.number) ? 0 : row.in_code;
  return sum;
}

bool meets_regions(const Log &own) {
  if (!own.has_initial_task) return false;
  return std::any_of(own.regions.begin(), own.regions.end(), [](const RegionTime &one) { return one.is_outermost; });
}

int64_t processor_time_outside(const Log &own, int64_t now) {
  int64_t inside = 0;
  for (const RegionTime &time : own.regions)
    if (time.is_outermost) inside += time.processor + (time.end ? 0 : now);
  return std::max<int64_t>(now - inside, 0);
}

int64_t time_outside(const Log &own, int64_t start, int64_t end) {
  int64_t inside = 0;
  for (const RegionTime &time : own.regions)
    if (time.is_outermost) inside += (time.end ? time.end : end) - time.begin;
  return std::max<int64_t>(end - start - inside, 0);
}

ProgramTime divide_time(const std::vector<Records *> &threads, int64_t start, int64_t end) {
  std::vector<std::pair<int64_t, int64_t>> spans;
  for (const Records *thread : threads)
    for (const RegionTime &time : thread->log.regions)
      if (time.is_outermost) spans.push_back({time.begin, time.end ? time.end : end});
  std::sort(spans.begin(), spans.end());
  ProgramTime out;
  int64_t covered = start;
  for (auto &[begin, end] : spans) {
    out.in_regions += std::max<int64_t>(end - std::max(begin, covered), 0);
    covered = std::max(covered, end);
  }
  out.outside = std::max<int64_t>(end - start - out.in_regions, 0);
  return out;
}
