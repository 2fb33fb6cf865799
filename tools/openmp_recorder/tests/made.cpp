#include "made.hpp"

#include <algorithm>
#include <map>
#include <utility>

#include "compose.hpp"
#include "events.hpp"
#include "size.hpp"
#include "check.hpp"

Made::Made(unsigned many) : count(many) {
  for (unsigned i = 0; i < many; i++) threads.push_back(std::make_unique<Kept>(i));
  threads[0]->log.regions.push_back({1, true, time, 0});
  add(0, RecordKind::ParallelBegin, 0, 1);
  begin_threads();
}

Made &Made::after(int64_t nanoseconds) {
  time += nanoseconds;
  return *this;
}

Made &Made::stood_still(uint32_t nanoseconds) {
  still = nanoseconds;
  return *this;
}

Made &Made::add(unsigned thread, RecordKind kind, uint32_t task, uint32_t other, unsigned detail, uint64_t code) {
  Record record{};
  record.at = record.wall = time;
  record.order = order++;
  record.stood_still = std::exchange(still, 0);
  record.task = task;
  record.other = other;
  record.code = code;
  record.kind = static_cast<uint8_t>(kind);
  record.detail = detail;
  threads[thread]->records.push_back(record);
  return *this;
}

Made &Made::begin_threads() {
  for (unsigned i = 0; i < count; i++) add(i, RecordKind::ImplicitBegin, 1 + i, 1, 0, count);
  return *this;
}

Made &Made::region_inside(uint32_t region, unsigned many, int64_t nanoseconds) {
  uint32_t own = 10 * region;
  threads[0]->log.regions.push_back({region, false, time, time + nanoseconds});
  add(0, RecordKind::ParallelBegin, 1, region).add(0, RecordKind::ImplicitBegin, own, region, 0, many);
  return after(nanoseconds).barrier(0, own).add(0, RecordKind::ParallelEnd, 1, region);
}

Made &Made::create(unsigned thread, uint32_t task, uint32_t child, unsigned details, uint64_t place) {
  return add(thread, RecordKind::Create, task, child, details, place);
}

Made &Made::path(unsigned thread, uint32_t number) {
  threads[thread]->records.back().path = number;
  return *this;
}

Made &Made::depend(unsigned thread, uint32_t task, const std::vector<DependItem> &items) {
  Log &log = threads[thread]->log;
  add(thread, RecordKind::Dependences, task, static_cast<uint32_t>(log.items.size()), 0, items.size());
  for (const DependItem &one : items) log.items.push_back(one);
  return *this;
}

Made &Made::go(unsigned thread, uint32_t from, uint32_t to, ompt_task_status_t why) {
  return add(thread, RecordKind::Schedule, from, to, why);
}

Made &Made::run(unsigned thread, uint32_t from, uint32_t task, int64_t nanoseconds) {
  return go(thread, from, task).after(nanoseconds).go(thread, task, from, ompt_task_complete);
}

Made &Made::sync(unsigned thread, uint32_t task, ompt_sync_region_t kind) {
  return add(thread, RecordKind::SyncBegin, task, 0, kind).add(thread, RecordKind::SyncEnd, task, 0, kind);
}

Made &Made::barrier(unsigned thread, uint32_t task) {
  return add(thread, RecordKind::SyncBegin, task, 0, ompt_sync_region_barrier_implicit_parallel);
}

Made &Made::passed(unsigned thread, int64_t wall, int64_t processor, bool slept, bool taken) {
  add(thread, RecordKind::Passed, 0);
  threads[thread]->records.back().passed = {slept, wall, processor, taken};
  return *this;
}

Made &Made::sample(unsigned thread, uint32_t stack, uint32_t microseconds, bool slept) {
  return add(thread, RecordKind::Sample, 0, microseconds, slept).path(thread, stack);
}

Run Made::read(Ending ending, const HowToRead &how) {
  if (!ending.wall) threads[0]->log.regions[0].end = time;
  std::vector<Records *> all;
  for (auto &thread : threads) {
    thread->begin_again();
    all.push_back(thread.get());
  }
  return read_run(all, ending, how);
}

DependItem item(ompt_dependence_type_t type, uint64_t address) { return {address, static_cast<uint64_t>(type)}; }

Region &only_region(Run &run) {
  Region &region = *run.regions.begin()->second;
  EXPECT(compose(region), true);
  add_up(region);
  size_of(region);
  return region;
}

std::string whole_text(Region &region, const Style &style, const Places &places) {
  std::string words;
  print_program(region, style, places, [&](std::string_view piece) { words += piece; });
  return words;
}

std::string text_of(Region &region, const Style &style) {
  std::string words = whole_text(region, style, Places());
  return words.substr(words.find('\n') + 1);
}

Events event_lines(const Region &region) {
  Events out;
  out.take(region, region, 0, region.opened);
  return out;
}

std::string told_times(const Region &region, Events events) {
  std::string out;
  events.print(region, [&](std::string_view piece) { out += piece; });
  return out;
}

std::string times_of(Region &region) {
  if (!region.has_events) return {};
  auto &whole = static_cast<WholeProgram &>(region);
  Events events("/tmp/spanprof_times");
  auto take_part = [&](const Region &part, uint32_t first, uint32_t end) {
    events.take(region, part, first, end);
    whole.off.number(region);
  };
  print_program(
      region, {}, Places(), [](std::string_view) {}, nullptr, take_part);
  EXPECT(events.are_whole(), true);
  return told_times(region, std::move(events)) + off_lines(region, whole.off);
}

std::string events_of(Region &region) {
  text_of(region);
  std::vector<Event> events;
  for (const Event &event : region.events) events.push_back(event);
  bool has_parts = !region.root->part;  // below a root that is made for them
  auto rank = [&](const Event &event) { return std::pair(event.at, !has_parts || event.task != region.root); };
  std::stable_sort(events.begin(), events.end(), [&](auto &a, auto &b) { return rank(a) < rank(b); });
  std::map<unsigned, unsigned> workers;
  std::string words;
  for (const Event &event : events) {
    uint32_t number = event.taken_back ? none : number_in_text(*event.task, event.segment, region);
    if (number == none) continue;
    unsigned worker = workers.emplace(event.worker, workers.size()).first->second;
    words += (event.start ? "start " : "finish ") + std::to_string(worker) + " " + std::to_string(number) + "\n";
  }
  return words;
}
