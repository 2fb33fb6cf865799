#include "phases.hpp"

#include <algorithm>
#include <cmath>
#include <utility>

namespace {
constexpr double alone =
    0.05;  // of the largest piece of a phase: where the others together have less, one thread runs it
constexpr double about = 0.25;  // of a turn, by which those of one length differ

// What the parts of a group had of a place; those that had nothing need not be there.
struct Had {
  uint64_t parts, count = 0, most = 0, least = UINT64_MAX, all = 0;
  void add(uint64_t cost) {
    count++;
    most = std::max(most, cost);
    least = std::min(least, cost);
    all += cost;
  }
  bool is_one_missing() const { return count < parts; }
  uint64_t less() const { return parts * most - all; }
  uint64_t least_of_all() const { return is_one_missing() ? 0 : least; }
  bool is_alone() const { return static_cast<double>(all - most) < alone * static_cast<double>(most); }
};
}  // namespace

uint32_t Phases::add_place(bool is_own, uint32_t kind) {
  sums.push_back({is_own, kind});
  had.push_back(0);
  is_met.push_back(false);
  return static_cast<uint32_t>(sums.size() - 1);
}

Phases::Group *Phases::find(uint32_t group) {
  for (size_t i = open.size(); i-- > 0;)
    if (open[i].number == group) return &open[i];
  return nullptr;
}

void Phases::begin_part(uint32_t group, uint32_t place, uint32_t region, bool is_behind) {
  bool is_new = open.empty() || group != current;
  end_part();
  if (is_new) {
    sums[place].phases++;
    sums[place].further += is_behind && region == region_before;
    region_before = region;
  }
  current = group;
  Group *own = find(group);
  if (!own) {
    if (unused.empty()) unused.emplace_back();
    own = &open.emplace_back(std::move(unused.back()));
    unused.pop_back();
    own->number = group;
  }
  own->parts++;
}

void Phases::end_part() {
  if (open.empty()) return;
  Group &own = *find(current);
  for (uint32_t place : met) {
    own.shares.push_back({place, std::exchange(had[place], 0)});
    is_met[place] = false;
  }
  met.clear();
  if (own.has_ended) close(own);
}

// Code that comes after it is still of its last part.
void Phases::end_group(uint32_t group) {
  Group *ended = find(group);
  if (!ended) return;
  ended->has_ended = true;
  if (group != current) close(*ended);
}

void Phases::close(Group &group) {
  add_up(group);
  group.shares.clear();
  group.parts = 0;
  group.has_ended = false;
  unused.push_back(std::move(group));
  open.erase(open.begin() + (&group - open.data()));
}

void Phases::add_up(Group &group) {
  std::vector<Share> &all = group.shares;
  std::sort(all.begin(), all.end(), [](const Share &a, const Share &b) { return a.place < b.place; });
  for (size_t first = 0, end = 0; first < all.size(); first = end) {
    while (end < all.size() && all[end].place == all[first].place) end++;
    add_up(group.parts, all.data() + first, all.data() + end);
  }
}

namespace {
// Whether what the parts had less than that with the most is nothing, or as long as a turn.
template <class Share>
bool are_turns(const Had &had, const Share *first, const Share *end, double length) {
  double largest = static_cast<double>(had.most - had.least_of_all());
  auto is_one = [&](uint64_t less) {
    return static_cast<double>(less) < about * length || std::abs(length - static_cast<double>(less)) < about * length;
  };
  if (2 * largest <= length || (had.is_one_missing() && !is_one(had.most))) return false;
  return std::all_of(first, end, [&](const Share &share) { return is_one(had.most - share.cost); });
}

// Whether it is as if they had a turn of a loop, or none, and some of them one more.
template <class Share>
bool is_by_a_turn(const Had &had, const Share *first, const Share *end) {
  if (4 * (had.most - had.least_of_all()) <= had.most) return false;
  auto length = static_cast<double>(had.most);
  return are_turns(had, first, end, length) || are_turns(had, first, end, length / 2);
}
}  // namespace

void Phases::add_up(uint64_t parts, const Share *first, const Share *end) {
  Had had{parts};
  for (const Share *share = first; share != end; share++) had.add(share->cost);
  Sums &of = sums[first->place];
  if (of.is_own) {
    of.longest += had.most;
    if (had.is_alone()) of.alone += had.most;
  }
  of.uneven += had.less();
  if (had.less() && is_by_a_turn(had, first, end)) of.by_a_turn += had.less();
}

const std::vector<Phases::Sums> &Phases::finish() {
  end_part();
  while (!open.empty()) close(open.back());
  return sums;
}
