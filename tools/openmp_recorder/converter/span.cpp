#include "span.hpp"

#include <omp-tools.h>

#include <algorithm>

namespace {
// The code of one task from its start, each segment as early as what it waits for lets it be.
class Timeline {
 public:
  Timeline(Task &of, LocationEnds &shared) : task(of), table(shared) { table.begin_task(); }
  void follow();

 private:
  Task &task;
  LocationEnds &table;
  int64_t now = 0;
  int64_t children = 0;  // the end of the last child
  int64_t below = 0;  // and of the last task below
  std::vector<int64_t> groups;  // of the last task in each group that is open

  void step(const Step &step);
  void create(const Task &child);
  int64_t after_items(const Task &child, int64_t start);
  void name_items(const Task &child, int64_t end);
};

bool is_set(const Item &item) {
  return item.type == ompt_dependence_type_inoutset || item.type == ompt_dependence_type_mutexinoutset;
}

int64_t Timeline::after_items(const Task &child, int64_t start) {
  for (const Item &item : child.items) {
    const LocationEnds::Ends &location = table.at(item);
    start = std::max(start, location.other);
    if (item.type != ompt_dependence_type_in) start = std::max(start, location.in);
    if (!is_set(item)) start = std::max(start, location.set);
  }
  return start;
}

void Timeline::name_items(const Task &child, int64_t end) {
  for (const Item &item : child.items) {
    LocationEnds::Ends &location = table.at(item);
    int64_t &last = item.type == ompt_dependence_type_in ? location.in : is_set(item) ? location.set : location.other;
    last = std::max(last, end);
  }
}

void Timeline::create(const Task &child) {
  int64_t start = after_items(child, now), end = start + child.end, last = start + child.end_below;
  name_items(child, end);
  children = std::max(children, end);
  below = std::max(below, last);
  if (!groups.empty()) groups.back() = std::max(groups.back(), last);
  if (child.undeferred) now = std::max(now, end);
}

void Timeline::step(const Step &step) {
  switch (step.kind) {
    case Kind::Work: now += step.cost(); return;
    case Kind::Create: return create(*step.child());
    case Kind::Wait: now = std::max(now, children); return;
    case Kind::GroupBegin: groups.push_back(0); return;
    case Kind::GroupEnd:
      now = std::max(now, groups.back());
      groups.pop_back();
      return;
  }
}

void Timeline::follow() {
  for (const Step &one : task.steps) step(one);
  task.end = now;
  task.end_below = std::max(below, task.end);
}

void follow(Task &task, LocationEnds &table) {
  if (!task.children) task.end = task.end_below = in_pieces(task.total, task);
  else Timeline(task, table).follow();
}
}  // namespace

LocationEnds::Ends &LocationEnds::at(const Item &item) {
  if (item.location >= locations.size()) locations.resize(2 * item.location + 1, {});
  Ends &ends = locations[item.location];
  if (ends.maker != makers) ends = {makers, 0, 0, 0};
  return ends;
}

void RootEnds::add(const Task &root) {
  below = std::max(below, now + root.end_below);
  now += root.end;
}

int64_t span_of(Region &region) {
  LocationEnds ends(region.locations.size());
  return span_of(region, ends);
}

int64_t span_of(Region &region, LocationEnds &ends) {
  for (auto task = region.tasks.rbegin(); task != region.tasks.rend(); ++task) follow(*task, ends);
  return region.root->end_below;
}
