#include "joined_times.hpp"

#include <algorithm>

namespace {
void renumber(Event &event, const std::vector<unsigned> &left_out) {
  auto at = std::lower_bound(left_out.begin(), left_out.end(), event.segment);
  event.taken_back = event.taken_back || (at != left_out.end() && *at == event.segment);
  event.segment -= static_cast<unsigned>(at - left_out.begin());
}
}  // namespace

void JoinedTimes::apply(OffTimes &off) const {
  if (left_out.empty()) return;
  for (OffTime &one : off.all) {
    if (auto first = firsts.find(one.task); first != firsts.end()) one.task = first->second, one.segment = 0;
    auto part = left_out.find(one.task);
    if (part == left_out.end()) continue;
    const std::vector<unsigned> &gone = part->second;
    one.segment -= static_cast<unsigned>(std::lower_bound(gone.begin(), gone.end(), one.segment) - gone.begin());
  }
}

void JoinedTimes::apply(EventList &events) const {
  if (left_out.empty()) return;
  std::unordered_map<const Task *, int64_t> ends;  // of those that are one with others before them
  for (const Event &event : events)
    if (!event.start && firsts.count(event.task)) ends[event.task] = event.at;
  for (Event &event : events) {
    auto last = lasts.find(event.task);
    if (last != lasts.end() && !event.start) event.at = ends[last->second];
    auto part = left_out.find(event.task);
    if (part != left_out.end()) renumber(event, part->second);
  }
}
