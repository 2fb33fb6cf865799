#include "off_times.hpp"

#include <algorithm>
#include <map>
#include <utility>

#include "run.hpp"

namespace {
using ByNumber = std::map<uint64_t, std::pair<int64_t, int64_t>>;

int64_t share(int64_t time, int64_t piece, int64_t pieces) {
  return time * (piece + 1) / pieces - time * piece / pieces;
}

void add(ByNumber &found, const OffTime &one) {
  int64_t pieces = one.pieces;
  for (int64_t i = 0; i < pieces; i++) {
    auto &[slept, preempted] = found[one.number + 2 * static_cast<uint64_t>(i)];
    slept += share(one.slept, i, pieces);
    preempted += share(one.preempted, i, pieces);
  }
}
}  // namespace

void OffTimes::add(const OffTime &one) {
  bool is_more = !all.empty() && all.back().task == one.task && all.back().segment == one.segment;
  if (!is_more || one.stands_for || all.back().stands_for) return all.push_back(one);
  all.back().slept += one.slept;
  all.back().preempted += one.preempted;
}

void OffTimes::move(std::size_t since, const Task &of, const Task &to, unsigned first_segment) {
  for (std::size_t i = since - std::min(since, gone); i < all.size(); i++)
    if (all[i].task == &of) all[i].task = &to, all[i].segment += first_segment;
}

void OffTimes::release(const Task &root, const Task &of_stretch) {
  std::vector<OffTime> &own = released.emplace_back(), left;
  for (OffTime &one : all) {
    bool is_of_root = one.task == &root;
    bool is_left = is_of_root ? one.segment >= of_stretch.segment : !one.task->is_released;
    if (is_of_root && is_left) one.segment -= of_stretch.segment;
    if (!is_left) one.in_stretch = (is_of_root ? of_stretch : *one.task).first_number, one.task = nullptr;
    (is_left ? left : own).push_back(one);
  }
  own.shrink_to_fit();
  gone += own.size();
  all = std::move(left);
}

void OffTimes::begin_again() {
  rest = std::move(all);
  numbered.clear();
}

void OffTimes::take_back(std::size_t stretch, const std::vector<Task *> &tasks) {
  read = stretch;
  all = stretch < released.size() ? released[stretch] : std::vector<OffTime>();
  for (OffTime &one : all) one.task = one.in_stretch == none ? nullptr : tasks[one.in_stretch];
}

void OffTimes::go_on() {
  read = SIZE_MAX;
  all = std::move(rest);
}

void OffTimes::number(const Region &region) {
  constexpr size_t at_once = 64;  // their tasks lie anywhere
  for (size_t i = 0; i < all.size(); i++) {
    OffTime &one = all[i];
    if (i % at_once == 0) table_memory::stay_within();
    if (!one.task) continue;
    one.number = number_in_text(*one.task, one.segment, region);
    one.pieces = tasks_for(*one.task);
    if (one.number != none) numbered.push_back(one);
  }
  all = {};
  if (read < released.size()) released[read] = {};
}

std::string off_lines(const Region &region, OffTimes &times) {
  times.number(region);
  ByNumber found;
  for (const OffTime &one : times.in_text()) add(found, one);
  std::string out;
  for (auto &[number, off] : found) {
    if (!off.first && !off.second) continue;
    out += std::to_string(number) + " " + std::to_string(off.first) + " " + std::to_string(off.second) + "\n";
  }
  return out;
}
