#include "auxiliary.hpp"

#include <algorithm>
#include <unordered_map>
#include <utility>

namespace {
void add_in_front(Task &task, int64_t cost) {
  if (!task.steps.empty() && task.steps[0].kind == Kind::Work) return task.steps[0].add_cost(cost);
  ShortList<Step> steps;
  steps.push_back(Step::work(cost));
  for (const Step &step : task.steps) steps.push_back(step);
  task.steps = std::move(steps);
}

// The steps of a task, with those of its auxiliary tasks in their place.
class Maker {
 public:
  explicit Maker(Task &of) : task(of) {}
  void take_over();
  unsigned now(unsigned before) const { return numbers[before]; }
  unsigned empty_after(unsigned before) const {  // segments that were none
    return before + 1 < numbers.size() ? numbers[before + 1] - numbers[before] - 1 : 0;
  }

 private:
  Task &task;
  ShortList<Step> steps;
  std::vector<unsigned> numbers{0};  // of its segments, by the number that each had
  unsigned segment = 0, children = 0;
  int64_t cost = 0;  // of auxiliary code, for what it makes next
  Task *made = nullptr;  // by auxiliary tasks, last

  void put(const Step &step);
  void dissolve(Task &auxiliary);
  void adopt(Task &child);
};

void Maker::put(const Step &step) {
  steps.push_back(step);
  segment += ends_a_segment(step);
  children += step.kind == Kind::Create;
}

void Maker::adopt(Task &child) {
  put(Step::create(&child));
  child.parent = &task;
  made = &child;
  if (cost) add_in_front(child, std::exchange(cost, 0));
}

void Maker::dissolve(Task &auxiliary) {
  for (const Step &step : auxiliary.steps) {
    if (step.kind == Kind::Work) cost += step.cost();
    if (step.kind != Kind::Create) continue;
    if (step.child()->auxiliary) dissolve(*step.child());
    else adopt(*step.child());
  }
  auxiliary.steps.clear();
  auxiliary.parent = nullptr;
  auxiliary.children = 0;
}

void Maker::take_over() {
  for (const Step &step : task.steps) {
    if (step.kind == Kind::Create && step.child()->auxiliary) dissolve(*step.child());
    else put(step);
    if (ends_a_segment(step)) numbers.push_back(segment);
  }
  if (cost && made) add_in_front(*made, cost);
  task.steps = std::move(steps);
  task.segment = segment;
  task.children = children;
}

using Makers = std::unordered_map<const Task *, Maker>;

Makers makers_of(Region &region) {
  Makers makers;
  for (Task &task : region.tasks)
    if (task.auxiliary && task.parent && !task.parent->auxiliary) makers.emplace(task.parent, *task.parent);
  for (auto &[task, maker] : makers) maker.take_over();
  return makers;
}

// Of a maker's segment, and of those after it that only make a task: these pass at once.
void put(EventList &events, Event event, const Maker &maker) {
  unsigned more = event.start ? 0 : maker.empty_after(event.segment);
  event.segment = maker.now(event.segment);
  events.push_back(event);
  for (unsigned i = 0; i < more; i++) {
    event.segment++;
    for (bool start : {true, false}) {
      event.start = start;
      events.push_back(event);
    }
  }
}

void rewrite_events(Region &region, const Makers &makers) {
  EventList events;
  std::vector<size_t> places;  // of the events, by their places before
  for (const Event &event : region.events) {
    places.push_back(events.size());
    auto maker = makers.find(event.task);
    if (maker != makers.end()) put(events, event, maker->second);
    else if (!event.task->auxiliary) events.push_back(event);
  }
  places.push_back(events.size());
  for (Part &part : region.parts) part.first = places[std::min(part.first, places.size() - 1)];
  region.events = std::move(events);
}
}  // namespace

void leave_out_auxiliary(Region &region) {
  if (!region.has_auxiliary) return;
  Makers makers = makers_of(region);
  if (!makers.empty()) rewrite_events(region, makers);
}
