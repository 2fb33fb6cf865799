#include "locks.hpp"

#include <algorithm>
#include <iterator>

void LockUse::add(const LockUse &more) {
  if (!times) kind = more.kind, code = more.code;
  times += more.times;
  inside += more.inside;
  waiting += more.waiting;
  alone += more.alone;
}

void Locks::leave(LockName name, uint32_t region, int64_t own_clock, size_t records) {
  for (auto lock = held.rbegin(); lock != held.rend(); ++lock) {
    if (lock->name != name) continue;
    int64_t inside = std::max<int64_t>(own_clock - lock->since, 0);
    LockUse use{lock->kind, lock->code, 1, inside, lock->waited, lock->records == records ? inside : 0};
    used[{region, name}].add(use);
    at_places[{lock->code, lock->kind}].add(use);
    held.erase(std::next(lock).base());
    return;
  }
}
