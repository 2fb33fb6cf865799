#include "shared_lines.hpp"

#include <algorithm>
#include <array>
#include <cmath>
#include <set>

#include "machine_code.hpp"
#include "strides.hpp"

namespace {
constexpr unsigned line_bits = 6;
constexpr int64_t at_once = 20000000;  // nanoseconds, five samples of a thread
constexpr size_t most_functions = 16;
constexpr uint64_t longest = 1 << 14, most_bytes = 512;  // of a function, and of what follows a sample in its loop
constexpr uint64_t least = 100;  // of all sampled time, the part of a function that is looked at
constexpr double least_met = 5;  // uses on the same line, below which they show nothing
constexpr size_t most_pairs = 1 << 22;  // of uses that are compared: more show no more

using Function = std::pair<const ModuleOfRun *, uint64_t>;  // where it begins in the file

struct Found {
  uint64_t time = 0, end = 0;
  std::vector<size_t> samples;
  size_t instructions = 0;  // from the first to the last that a sample interrupted
  bool synchronises = false;
};

uint64_t in_file(const Interrupted &one, const ModuleOfRun &module) { return one.code - module.base; }

// A long one, or code without a symbol, is read from a little before: instructions are soon found again.
uint64_t begin_of(uint64_t at, const ModuleOfRun &module) {
  auto symbol = module.file ? module.file->function_at(at) : std::nullopt;
  uint64_t far = longest / 64;
  return symbol && symbol->offset < longest ? at - symbol->offset : at - std::min(at, at % far + far);
}

std::map<Function, Found> functions_of(const Stacks &stacks, const ModulesOfRun &modules) {
  std::map<Function, Found> found;
  for (size_t i = 0; i < stacks.interrupted.size(); i++) {
    const Interrupted &one = stacks.interrupted[i];
    const ModuleOfRun *module = modules.of(reinterpret_cast<const void *>(one.code));
    if (!module || module->is_runtime) continue;
    uint64_t at = in_file(one, *module);
    Found &function = found[{module, begin_of(at, *module)}];
    function.time += one.stands_for;
    function.end = std::max(function.end, at + most_bytes);
    function.samples.push_back(i);
  }
  return found;
}

// Those in which most of the time was spent: each is read by a program of its own.
std::vector<std::pair<Function, Found>> longest_of(const std::map<Function, Found> &found) {
  std::vector<std::pair<Function, Found>> out(found.begin(), found.end());
  uint64_t whole = 0;
  for (auto &one : out) whole += one.second.time;
  std::sort(out.begin(), out.end(), [](auto &one, auto &other) { return one.second.time > other.second.time; });
  size_t many = 0;
  while (many < std::min(out.size(), most_functions) && out[many].second.time * least >= whole) many++;
  out.resize(many);
  return out;
}

// How many instructions stand between the first and the last sample of a function, with these.
size_t between(const Instructions &code, const Found &function, const Stacks &stacks, const ModuleOfRun &module) {
  uint64_t first = UINT64_MAX, last = 0;
  for (size_t i : function.samples) {
    first = std::min(first, in_file(stacks.interrupted[i], module));
    last = std::max(last, in_file(stacks.interrupted[i], module));
  }
  return static_cast<size_t>(std::distance(code.lower_bound(first), code.upper_bound(last)));
}

// By instruction, the place behind the one with which the loop around it waits for another thread.
std::map<uint64_t, const void *> waiting(const Instructions &code, const Found &function, const Stacks &stacks,
                                         const ModuleOfRun &module) {
  std::map<uint64_t, const void *> out;
  for (size_t i : function.samples) {
    uint64_t at = in_file(stacks.interrupted[i], module);
    if (out.count(at)) continue;
    std::optional<uint64_t> looking = waits_in_loop(code, at);
    out[at] = looking ? reinterpret_cast<const void *>(module.base + *looking + 1) : nullptr;
  }
  return out;
}

// Whether the function has an atomic operation, up to where it returns behind its last sample.
bool synchronises(const Instructions &code, const Found &function) {
  for (auto &[at, instruction] : code) {
    if (std::optional<MemoryUse> use = memory_use(instruction); use && use->is_atomic) return true;
    if (at + most_bytes >= function.end && !instruction.rfind("ret", 0)) return false;
  }
  return false;
}

// Of a function; an atomic operation goes as a whole where nothing is shared.
void set_beyond(const Found &function, const Stacks &stacks, std::vector<Contended> &all) {
  std::vector<Interrupted> some, others;
  for (size_t i : function.samples)
    if (!all[i].is_wait) (all[i].place ? some : others).push_back(stacks.interrupted[i]);
  double beyond = beyond_others(some, others, function.instructions);
  for (size_t i : function.samples)
    if (!all[i].is_atomic) all[i].beyond *= beyond;
}

// Uses near others in time, and those of them that were on the same line, which one of them wrote.
struct Met {
  double times[2] = {}, on_line[2] = {};  // of the own thread, and of others
};

// The most that is within the spread of such counts: few show hardly more than whether lines are shared or not.
double shared_part(const Met &met) {
  auto [own, others] = met.on_line;
  if (own + others < least_met || others == 0) return 0;
  double most = others + std::sqrt(others), least_own = std::max(1.0, own - std::sqrt(own));
  return std::min(1.0, most / met.times[1] * met.times[0] / least_own);
}

// Whether another thread used any line at about the same time.
std::vector<bool> are_beside_others(const std::vector<Used> &all) {
  std::map<int64_t, std::set<unsigned>> threads;
  for (const Used &use : all)
    for (int64_t near : {-1, 0, 1}) threads[use.wall / at_once + near].insert(use.thread);
  std::vector<bool> out;
  for (const Used &use : all) out.push_back(threads[use.wall / at_once].size() > 1);
  return out;
}

// Samples of uses that met no other one count as well, in part, where those that did are less than what is shared.
void add_unmet(const std::vector<Used> &all, const Stacks &stacks, std::vector<Contended> &out) {
  std::map<const void *, std::array<double, 2>> time;  // by place, of samples that met none, and of those that did
  std::vector<bool> beside = are_beside_others(all);
  for (const Used &use : all)
    time[use.place][out[use.sample].place != nullptr] += stacks.interrupted[use.sample].stands_for;
  std::map<const void *, double> parts = shared_parts(all);
  for (size_t i = 0; i < all.size(); i++) {
    const Used &use = all[i];
    auto [unmet, shared] = time[use.place];
    double part = unmet > 0 ? (parts[use.place] * (unmet + shared) - shared) / unmet : 0;
    if (part > 0 && beside[i] && !out[use.sample].place) out[use.sample] = {use.place, part, use.is_atomic};
  }
}

// Whether two threads used a line at the same time, and one of them wrote it.
bool is_contended(const std::vector<Used> &all, std::vector<size_t> &uses) {
  std::sort(uses.begin(), uses.end(), [&](size_t one, size_t other) { return all[one].wall < all[other].wall; });
  for (size_t i = 0; i < uses.size(); i++)
    for (size_t j = i + 1; j < uses.size() && all[uses[j]].wall - all[uses[i]].wall < at_once; j++) {
      const Used &one = all[uses[i]], &other = all[uses[j]];
      if (one.thread != other.thread && (one.writes || other.writes)) return true;
    }
  return false;
}
}  // namespace

std::vector<bool> are_contended(const std::vector<Used> &all) {
  std::map<uint64_t, std::vector<size_t>> by_line;
  for (size_t i = 0; i < all.size(); i++) by_line[all[i].address >> line_bits].push_back(i);
  std::vector<bool> out(all.size()), beside = are_beside_others(all);
  for (auto &[line, uses] : by_line)
    if (is_contended(all, uses))
      for (size_t i : uses) out[i] = beside[i];
  return out;
}

double beyond_others(const std::vector<Interrupted> &some, const std::vector<Interrupted> &others,
                     size_t instructions) {
  std::set<uint64_t> here;
  uint64_t time = 0, time_around = 0;
  for (const Interrupted &one : some) here.insert(one.code), time += one.stands_for;
  for (const Interrupted &one : others) time_around += here.count(one.code) ? 0 : one.stands_for;
  if (instructions <= here.size() || !time) return 1;
  double each = static_cast<double>(time_around) / static_cast<double>(instructions - here.size());
  return std::max(0.0, 1 - each * static_cast<double>(here.size()) / static_cast<double>(time));
}

std::map<const void *, double> shared_parts(std::vector<Used> all) {
  std::sort(all.begin(), all.end(), [](const Used &one, const Used &other) { return one.wall < other.wall; });
  std::map<const void *, Met> met;
  size_t near = std::max<size_t>(4, most_pairs / std::max<size_t>(1, all.size()));
  for (size_t i = 0; i < all.size(); i++)
    for (size_t j = i + 1; j < std::min(all.size(), i + near) && all[j].wall - all[i].wall < at_once; j++) {
      const Used &one = all[i], &other = all[j];
      if (one.sample == other.sample) continue;
      bool is_other = one.thread != other.thread, is_line = one.address >> line_bits == other.address >> line_bits;
      for (const void *place : {one.place, other.place})
        met[place].times[is_other]++, met[place].on_line[is_other] += is_line && (one.writes || other.writes);
    }
  std::map<const void *, double> out;
  for (auto &[place, found] : met) out[place] = shared_part(found);
  return out;
}

std::vector<Contended> contending(const Stacks &stacks, const ModulesOfRun &modules) {
  std::vector<Used> all;
  std::vector<Contended> waits(stacks.interrupted.size());
  std::map<size_t, const void *> loops;
  std::vector<std::pair<Function, Found>> functions = longest_of(functions_of(stacks, modules));
  for (auto &[function, found] : functions) {
    const ModuleOfRun &module = *function.first;
    Instructions code = disassembled(module, function.second, found.end);
    found.instructions = between(code, found, stacks, module);
    found.synchronises = synchronises(code, found);
    std::map<uint64_t, const void *> waited = waiting(code, found, stacks, module);
    Strides strides(code, caches_of_machine());
    for (size_t i : found.samples) {
      const Interrupted &one = stacks.interrupted[i];
      if (const void *place = waited[in_file(one, module)]) {
        waits[i] = {place, 1, false, true};
        continue;
      }
      for (const MemoryUse &use : used_near(code, in_file(one, module))) {
        auto *place = reinterpret_cast<const void *>(module.base + use.code + 1);
        uint64_t address = address_of(use, one.registers, module);
        all.push_back({i, address, one.thread, one.wall, use.writes, place, use.is_atomic});
        strides.meet(i, use, one.registers);
      }
    }
    for (auto [sample, back] : strides.wide())
      loops.emplace(sample, reinterpret_cast<const void *>(module.base + back + 1));
  }
  std::vector<Contended> out = std::move(waits);
  std::vector<bool> contended = are_contended(all);
  for (size_t i = all.size(); i-- > 0;)
    if (contended[i]) out[all[i].sample] = {all[i].place, 1, all[i].is_atomic};
  add_unmet(all, stacks, out);
  for (auto &[function, found] : functions) {
    set_beyond(found, stacks, out);
    for (size_t i : found.samples) out[i].synchronises = found.synchronises;
  }
  for (auto [sample, loop] : loops) out[sample].loop = loop;
  return out;
}
