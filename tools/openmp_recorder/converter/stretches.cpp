#include "stretches.hpp"

#include "pieces.hpp"
#include "place_region.hpp"
#include "program_text.hpp"

namespace {
// Of a task in the file; its steps and items follow, of which a creation has the number of what it makes.
struct Stored {
  uint64_t code : 48;
  uint64_t part : 1, undeferred : 1, of_loop : 1, is_piece : 1, origin : 2;
  uint32_t steps, items;
};
static_assert(sizeof(Stored) == 16, "a program has millions");

struct StoredEvent {
  int64_t at;
  uint32_t task, segment, worker, start;
};
}  // namespace

void Stretches::put_task(const Task &t) {
  Stored stored{reinterpret_cast<uint64_t>(t.code), t.part,         t.undeferred,  t.of_loop, t.pieces != 0,
                static_cast<uint64_t>(t.origin),    t.steps.size(), t.items.size()};
  file.write(&stored, sizeof stored);
  for (Step step : t.steps) {
    if (step.kind == Kind::Create) step = Step::number(step.child()->first_number);
    file.write(&step, sizeof step);
  }
  if (!t.items.empty()) file.write(t.items.data(), t.items.size() * sizeof(Item));
}

// Of segments that will have a number.
void Stretches::put_events(const EventList &events) {
  for (const Event &event : events) {
    if (event.taken_back || event.task->first_number == none) continue;
    StoredEvent stored{event.at, event.task->first_number, event.segment, event.worker, event.start};
    file.write(&stored, sizeof stored);
    counts.back().events++;
  }
}

void Stretches::put(Region &stretch) {
  uint32_t count = 0;
  auto is_there = [&](const Task &t) { return t.parent || &t == stretch.root; };
  for (Task &t : stretch.tasks)
    if (is_there(t)) t.first_number = count++;
  counts.push_back({count, 0, file.size()});
  for (const Task &t : stretch.tasks)
    if (is_there(t)) put_task(t);
  put_events(stretch.events);
}

void Stretches::put_last_first(const Task &root) {
  is_last_first = true;
  finest.below = std::max(finest.below, root.end_below);
}

void Stretches::get_task(Task &t, const std::vector<Task *> &all) {
  Stored stored;
  file.read(&stored, sizeof stored);
  t.code = reinterpret_cast<const void *>(uint64_t{stored.code});
  t.part = stored.part;
  t.undeferred = stored.undeferred;
  t.of_loop = stored.of_loop;
  t.pieces = stored.is_piece;
  t.origin = static_cast<Origin>(stored.origin);
  t.steps.reserve(stored.steps);
  for (uint32_t i = 0; i < stored.steps; i++) {
    Step step = Step::work(0);
    file.read(&step, sizeof step);
    if (step.kind == Kind::Create) {
      Task *child = all[step.number()];
      child->parent = &t;
      step = Step::create(child);
    }
    add_step(t, step);
  }
  t.items.reserve(stored.items);
  for (uint32_t i = 0; i < stored.items; i++) {
    Item item{};
    file.read(&item, sizeof item);
    t.items.push_back(item);
  }
}

void Stretches::get_events(EventList &events, std::size_t count, const std::vector<Task *> &all) {
  for (std::size_t i = 0; i < count; i++) {
    StoredEvent stored;
    file.read(&stored, sizeof stored);
    auto worker = static_cast<uint16_t>(stored.worker);
    events.push_back({all[stored.task], stored.at, stored.segment, worker, stored.start != 0});
  }
}

void Stretches::each(bool timed, const std::function<void(Region &, std::size_t, const std::vector<Task *> &)> &take) {
  for (std::size_t i = 0; i < counts.size(); i++) {
    std::size_t number = is_last_first ? (i ? i : counts.size()) - 1 : i;
    file.go_to(counts[number].begin);
    Region stretch;
    std::vector<Task *> all;
    while (all.size() < counts[number].tasks) all.push_back(&stretch.tasks.emplace_back());
    for (Task *t : all) get_task(*t, all);
    if (timed) get_events(stretch.events, counts[number].events, all);
    stretch.root = all.front();
    take(stretch, number, all);
  }
}

void Stretches::take_sums(Region &stretch, int64_t unit) {
  size.add(size_of(stretch));
  work_in_units += ::work_in_units(stretch, unit);
  for (const void *code : codes_of(stretch)) codes.insert(code);
  constructs.add(stretch);
}

void each_stretch(Region &region, bool numbered, const std::function<void(Region &)> &take) {
  if (!region.before) return;
  auto &whole = static_cast<WholeProgram &>(region);
  bool timed = numbered && region.has_events;
  if (numbered) whole.off.begin_again();
  whole.before->each(timed, [&](Region &stretch, std::size_t number, const std::vector<Task *> &tasks) {
    if (numbered) whole.off.take_back(number, tasks);
    put_pieces(whole, number, tasks, stretch.events);
    take(stretch);
  });
  if (numbered) whole.off.go_on();
}
