#include "place_region.hpp"

#include <algorithm>
#include <utility>

namespace {
// What costs nothing and makes nothing leaves no trace.
bool is_empty(const Task &part) {
  return part.items.empty() && std::all_of(part.steps.begin(), part.steps.end(),
                                           [](const Step &step) { return step.kind == Kind::Work && !step.cost(); });
}

// The parts of each phase that make tasks come first, where none depends on another.
std::vector<Part> in_order(const Region &region) {
  std::vector<Part> parts;
  auto depends = [](const Part &part) { return !part.task->items.empty(); };
  bool by_time = std::any_of(region.parts.begin(), region.parts.end(), depends);
  for (const Part &part : region.parts)
    if (!is_empty(*part.task)) parts.push_back(part);
  std::stable_sort(parts.begin(), parts.end(), [&](const Part &a, const Part &b) {
    return std::pair(a.phase, !by_time && !a.task->children) < std::pair(b.phase, !by_time && !b.task->children);
  });
  return parts;
}
}  // namespace

void place_parts(const std::vector<Part> &parts, Task &owner, const void *code) {
  for (size_t i = 0; i < parts.size();) {
    unsigned phase = parts[i].phase;
    add_step(owner, Step::at(Kind::GroupBegin, code));
    for (; i < parts.size() && parts[i].phase == phase; i++) {
      add_step(owner, Step::create(parts[i].task));
      parts[i].task->parent = &owner;
    }
    add_step(owner, Step::at(Kind::GroupEnd, nullptr));
  }
}

std::vector<Part> place_region(Region &region) {
  if (!region.owner) return {};
  Task &owner = *std::exchange(region.owner, nullptr);
  std::vector<Part> parts = in_order(region);
  place_parts(parts, owner, region.code);
  return parts;
}

Moment begin_of_phase(const std::vector<Part> &parts, size_t one, const EventList &events, Moment otherwise) {
  const Event *first = nullptr;
  for (size_t i = one; i < parts.size() && parts[i].phase == parts[one].phase; i++) {
    if (parts[i].first >= events.size()) continue;
    const Event &event = events[parts[i].first];
    if (!first || event.at < first->at) first = &event;
  }
  return first ? Moment{first->at, first->worker} : otherwise;
}

void put_empty_segment(EventList &events, Task &t, unsigned segment, Moment when) {
  for (bool start : {true, false}) events.push_back({&t, when.at, segment, when.worker, start});
}

void time_placed(const std::vector<Part> &parts, Task &owner, unsigned segment, Moment first, EventList &events) {
  for (size_t i = 0; i < parts.size(); i++) {
    if (i && parts[i].phase != parts[i - 1].phase) {
      first = begin_of_phase(parts, i, events, first);
      put_empty_segment(events, owner, ++segment, first);
    }
    put_empty_segment(events, owner, ++segment, first);
  }
}

void take_over_steps(Task &into, Task &from) {
  for (const Step &step : from.steps) {
    bool joins = step.kind == Kind::Work && !into.steps.empty() && into.steps.back().kind == Kind::Work;
    if (joins) into.steps.back().add_cost(step.cost());
    else add_step(into, step);
    if (step.kind == Kind::Create) step.child()->parent = &into;
  }
  from.steps.clear();
  from.parent = nullptr;
  from.pieces = from.children = from.segment = 0;
}
