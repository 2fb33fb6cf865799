#include "lock_table.hpp"

#include <omp-tools.h>

#include <algorithm>

#include "json.hpp"

namespace {
void put(std::string &out, const LockSums::key_type &name, const LockUse &use) {
  Object line;
  line.put("place", name.first).put("kind", name.second).put("times", use.times);
  line.put("inside_ns", use.inside).put("waited_ns", use.waiting);
  out += line.end() + "\n";
}

std::string lock_kind(int kind) {  // as OMPT has it
  switch (kind) {
    case ompt_mutex_critical: return "critical";
    case ompt_mutex_atomic: return "atomic";
    case ompt_mutex_ordered: return "ordered";
    case ompt_mutex_nest_lock:
    case ompt_mutex_test_nest_lock: return "omp_nest_lock";
    case system_mutex: return "mutex";
    case system_rwlock: return "rwlock";
    default: return "omp_lock";
  }
}
}  // namespace

void add(LockSums &sums, const LockUse &use, const Places &places) {
  sums[{places.at(use.code), lock_kind(use.kind)}].add(use);
}

LockRows most_first(const LockSums &sums, int64_t LockUse::*time) {
  LockRows rows(sums.begin(), sums.end());
  std::stable_sort(rows.begin(), rows.end(), [time](auto &a, auto &b) { return a.second.*time > b.second.*time; });
  return rows;
}

std::vector<const void *> codes_of_locks(const std::vector<Records *> &threads) {
  std::vector<const void *> codes;
  for (const Records *thread : threads)
    for (auto &[place, use] : thread->log.locks.by_place()) codes.push_back(place.first);
  return codes;
}

std::string lock_table(const std::vector<Records *> &threads, const Places &places) {
  LockSums sums;
  for (const Records *thread : threads)
    for (auto &[place, use] : thread->log.locks.by_place()) add(sums, use, places);
  std::string out;
  for (auto &[name, use] : most_first(sums, &LockUse::waiting)) put(out, name, use);
  return out;
}
