#include "strides.hpp"

#include <unistd.h>

#include <algorithm>
#include <cstdlib>

namespace {
constexpr int64_t line_bits = 6, line_bytes = 1 << line_bits;
constexpr long usual_first = 32768, usual_second = 262144;  // bytes of caches
constexpr unsigned most_between = 4;  // instructions between a loop's comparison and its jump

using Steps = std::vector<std::pair<int, int64_t>>;

struct Loop {
  Instructions::const_iterator first, last;  // the last one jumps back to the first
};

std::optional<Loop> innermost_loop(const Instructions &code, uint64_t at) {
  std::optional<Loop> found;
  for (auto last = code.lower_bound(at); last != code.end(); ++last) {
    std::optional<uint64_t> target = jump_target(last->second);
    auto first = target && *target <= at ? code.find(*target) : code.end();
    if (first != code.end() && (!found || found->first->first < first->first)) found = Loop{first, last};
  }
  return found;
}

bool is_written(const Loop &loop, int number) {
  return std::any_of(loop.first, loop.last, [&](auto &one) { return written_register(one.second) == number; });
}

// Adds how a register goes on in a turn, so often; false where that is not known.
bool add_steps(const Loop &loop, int of, int64_t times, int64_t &bytes, Steps &by) {
  for (auto one = loop.first; one != loop.last && of >= 0; ++one) {
    if (written_register(one->second) != of) continue;
    std::optional<Increment> step = step_of(one->second, of);
    if (!step || (step->by >= 0 && is_written(loop, step->by))) return false;
    bytes += times * step->bytes;
    if (step->by >= 0) by.emplace_back(step->by, times * step->times);
  }
  return true;
}

// The bytes that a turn uses by the same registers, each once, at their displacements.
std::map<int64_t, unsigned> uses_in(const Loop &loop, const MemoryUse &use, unsigned &count) {
  bool by_base = use.base >= 0 && is_written(loop, use.base), by_index = use.index >= 0 && is_written(loop, use.index);
  std::map<int64_t, unsigned> out;
  for (auto one = loop.first; one != loop.last; ++one) {
    std::optional<MemoryUse> other = memory_use(one->second);
    if (!other || (by_base && other->base != use.base) || (by_index && other->index != use.index)) continue;
    unsigned &bytes = out[static_cast<int64_t>(other->displacement)];
    bytes = std::max(bytes, bytes_at(one->second));
    count++;
  }
  return out;
}

// Whether lines are used by less than half of their bytes.
bool is_sparse(const std::map<int64_t, unsigned> &uses) {
  std::set<int64_t> lines;
  int64_t used = 0;
  for (auto [displacement, bytes] : uses) lines.insert(displacement >> line_bits), used += bytes;
  return 2 * used < static_cast<int64_t>(lines.size()) << line_bits;
}

void set_end(const Loop &loop, Walk &walk) {
  auto one = loop.last;
  for (unsigned i = 0; i < most_between && one != loop.first; i++) {
    std::optional<Compared> found = compared((--one)->second);
    if (!found) continue;
    if (!is_written(loop, found->one)) std::swap(found->one, found->other);
    if (add_steps(loop, found->one, 1, walk.end_bytes, walk.end_by)) walk.end = *found;
    return;
  }
}

int64_t value_of(int64_t bytes, const Steps &by, const Registers &registers) {
  for (auto [number, times] : by) bytes += times * static_cast<int64_t>(registers[static_cast<size_t>(number)]);
  return bytes;
}
}  // namespace

std::optional<Walk> walk_of(const Instructions &code, const MemoryUse &use) {
  std::optional<Loop> loop = innermost_loop(code, use.code);
  Walk walk;
  if (!loop || !add_steps(*loop, use.base, 1, walk.bytes, walk.by) ||
      !add_steps(*loop, use.index, use.scale, walk.bytes, walk.by))
    return std::nullopt;
  walk.back = loop->last->first;
  walk.is_sparse = is_sparse(uses_in(*loop, use, walk.uses));
  walk.uses = std::max(1u, walk.uses);
  set_end(*loop, walk);
  return walk;
}

int64_t stride_of(const Walk &walk, const Registers &registers) {
  return value_of(walk.bytes, walk.by, registers) / walk.uses;
}

uint64_t turns_left(const Walk &walk, const Registers &registers) {
  int64_t step = value_of(walk.end_bytes, walk.end_by, registers);
  if (walk.end.one < 0 || step == 0) return 0;
  Steps left{{walk.end.one, -1}};
  if (walk.end.other >= 0) left.emplace_back(walk.end.other, 1);
  return static_cast<uint64_t>(std::max<int64_t>(0, value_of(walk.end.number, left, registers) / step));
}

Caches caches_of_machine() {
  auto bytes = [](int name, long usual) {
    long found = sysconf(name);
    return static_cast<uint64_t>(found > 0 ? found : usual);
  };
  return {bytes(_SC_LEVEL1_DCACHE_SIZE, usual_first), bytes(_SC_LEVEL2_CACHE_SIZE, usual_second)};
}

void Strides::meet(size_t sample, const MemoryUse &use, const Registers &registers) {
  auto [walk, is_new] = walks.try_emplace(use.code);
  if (is_new) walk->second = walk_of(code, use);
  if (!walk->second || !walk->second->is_sparse) return;
  int64_t stride = std::llabs(stride_of(*walk->second, registers));
  if (stride < line_bytes) return;
  Far &found = far[use.code];
  found.back = walk->second->back;
  found.samples.push_back(sample);
  uint64_t uses = turns_left(*walk->second, registers) * walk->second->uses;
  found.lines = std::max(found.lines, uses);
  found.bytes = std::max(found.bytes, uses * static_cast<uint64_t>(stride));
}

std::map<size_t, uint64_t> Strides::wide() const {
  std::map<size_t, uint64_t> out;
  for (auto &[use, found] : far)
    if (found.lines << line_bits >= caches.first && found.bytes >= caches.second)
      for (size_t sample : found.samples) out.emplace(sample, found.back);
  return out;
}
