// How often a thread held each lock, for how long by the clock of costs, and how long it waited by the wall clock.
#pragma once
#include <cstddef>
#include <cstdint>
#include <map>
#include <utility>
#include <vector>

struct LockUse {
  int kind = 0;  // as OMPT has it
  const void *code = nullptr;  // where it was first asked for
  uint64_t times = 0;
  int64_t inside = 0, waiting = 0;
  int64_t alone = 0;  // of the time inside: where the runtime reported nothing, so that no other task ran there
  void add(const LockUse &more);
};

using LockName = uint32_t;
using LockPlace = std::pair<const void *, int>;  // where it was asked for, and its kind

struct HeldLock {
  LockName name;
  int kind;
  const void *code;  // where it was asked for
  int64_t since, waited;  // by the clock of the thread's code, which stands still where it runs none; by the wall clock
  size_t records;  // of the thread, until then
};

class Locks {
 public:
  void get(const HeldLock &one) { held.push_back(one); }
  void leave(LockName name, uint32_t region, int64_t own_clock, size_t records);
  const std::map<std::pair<uint32_t, LockName>, LockUse> &uses() const { return used; }  // by region and name
  const std::map<LockPlace, LockUse> &by_place() const { return at_places; }

 private:
  std::vector<HeldLock> held;
  std::map<std::pair<uint32_t, LockName>, LockUse> used;
  std::map<LockPlace, LockUse> at_places;
};
