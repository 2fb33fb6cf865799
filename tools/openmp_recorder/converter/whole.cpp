// The whole program as one text: its root is the code outside of regions, and each region stands in the task that met
// it. The chunks of a loop are tasks in a group of the part that ran them.
#include <omp-tools.h>

#include <algorithm>

#include "place_region.hpp"
#include "reader.hpp"
#include "runtime_ways.hpp"
#include "stretches.hpp"

namespace {
constexpr uint64_t most_room = 1 << 16;
}  // namespace

Reader::Reader(const HowToRead &chosen) : how(chosen) {
  if (!how.whole) return;
  run.whole = std::make_unique<WholeProgram>();
  run.whole->has_events = run.whole->has_off = how.times;
  run.whole->root = fresh(run.whole.get(), false);
  run.whole->root->part = true;
  run.whole->tasks.begin_block();
  room = std::min(how.most_held, most_room);
  may_release = how.most_held != UINT64_MAX;
}

void Reader::begin_root() {
  Task *root = run.whole->root;
  root->on = run.whole->first = log;
  worker().outside = root;
  root->running = true;
  root->since = how.start;
  if (run.whole->has_events)
    run.whole->events.push_back({root, how.start_wall, 0, static_cast<uint16_t>(log->worker), true});
  run.whole->recorder = worker().stood_still;
}

// A thread meets the runtime. Of all but the first what is outside of regions counts by the processor's clock alone: by
// the wall clock it may be waiting.
void Reader::initial_begin() {
  if (!run.whole) return;
  look_at_new_part(r->task);
  Task *t = run.whole->root;
  if (t->on && t->on != log) {
    t = fresh(run.whole.get(), true);
    t->part = true;
    hosts.push_back(t);
    t->on = log;
    worker().outside = t;
    t->running = record_clock().of_processor;  // since the thread began
    give_up_times();
  } else if (!t->on) {
    begin_root();
  }
  put(r->task, t);
}

void Reader::meet_region(Region &region) {
  release_beginning();
  Task *t = find(r->task), *root = run.whole->root;
  region.whole = run.whole.get();
  run.whole->numbers.add(region.number);
  region.has_events = false;
  if (ImplicitTask *own = in_loop(); own && own->chunk && t && t->part) {
    t = own->chunk;  // whose turns are not told apart then
    t->pieces = 1;
  }
  if (!t || t->is_ended) t = root;
  if (!root->on) begin_root();
  region.owner = t;
  region.is_of_host = t->is_of_host;
  (region.is_of_host ? begun_by_hosts : begun).push_back(&region);
  region.resumes = t->running && t->on == log;
  if (!region.resumes) return give_up_times();
  settle(t);
  end(t);
  region.met_at = r->wall;
  region.left = run.whole->events.size() - 1;
}

// Of what the whole program's text has otherwise than it ran.
void Reader::give_up_times() {
  run.whole->has_events = run.whole->has_off = false;
  run.whole->events = EventList();
  run.whole->off = {};
}

// A task that runs now goes on with the segment that it was left in, or has begun with it before.
void Reader::join_with_before(Task &t, size_t end, int64_t since) {
  if (!run.whole->has_events) return;
  EventList &events = run.whole->events;
  bool is_the_same = events[end].task == &t && !events[end].start && events[end].segment == t.segment;
  events[t.started].at = since;
  events[t.started].taken_back = is_the_same;
  if (is_the_same) events[end].taken_back = true;
}

void Reader::parallel_end() {
  auto region = run.regions.find(r->other);
  if (region == run.regions.end()) return;
  region->second->is_ended = true;
  if (region->second->owner) put_in_its_place(*region->second);
  release_if_ended(*region->second);
}

void Reader::put_in_its_place(Region &region) {
  Task *owner = region.owner;
  unsigned segment = owner->segment;
  std::vector<Part> parts = place_region(region);
  if (EventList &events = run.whole->events; run.whole->has_events)
    time_placed(parts, *owner, segment, {region.met_at, events[region.left].worker}, events);
  if (owner == run.whole->root && !parts.empty()) note_placed();
  if (!region.resumes) return;
  begin(owner);
  if (parts.empty()) join_with_before(*owner, region.left, r->wall);
}

Loop &Reader::loop_of(uint32_t region, unsigned number) {
  Loop *&known = loops[{region, number}];
  if (known) return *known;
  known = &run.whole->loop_list.emplace_back();
  known->number = static_cast<uint32_t>(run.whole->loop_list.size() - 1);
  return *known;
}

// The implicit task that the thread runs, if it is in a loop.
ImplicitTask *Reader::in_loop() {
  if (!in_loops || current().empty()) return nullptr;
  auto own = implicit.find(current().back());
  return own == implicit.end() || !own->second.loop ? nullptr : &own->second;
}

// On more threads a loop outside of regions is not divided, nor is one in a region of one thread inside another.
bool Reader::is_to_divide(const Region &region) const {
  bool is_outermost = region.owner && region.owner->region == run.whole.get();
  return region.threads > 1 || is_outermost;
}

void Reader::count_turns(const Loop &loop, const Region &region) {
  if (loop.what != Divided::Loops) return;
  MostTurns &most = run.whole->most_turns[loop.code];
  most.turns = std::max<uint64_t>(most.turns, loop.count);
  most.threads = std::max<unsigned>(most.threads, region.threads);
}

void Reader::divided_begin() {
  Task *t = running();
  if (!run.whole || !t || !t->part || is_host(t) || !is_to_divide(*t->region)) return;
  divided_end();
  ImplicitTask &own = implicit[current().back()];
  in_loops++;
  own.loop = &loop_of(r->other, own.loops++);
  own.loop->is_of_host = t->region->is_of_host;
  own.loop->what = static_cast<Divided>(r->detail);
  own.loop->code = r->place();
  own.loop->count = std::max<uint64_t>(own.loop->count, r->task);
  count_turns(*own.loop, *t->region);
  if (t->region->threads > 1) return;
  begin_chunk(own, r->task);  // all turns: for one thread no chunk may be reported
  own.all_turns = true;
}

// Of chunks that began one soon after the other the first is reported, and the turns of the others later.
void Reader::join_turns(const ImplicitTask &own) {
  if (!r->code || !own.chunk) return;
  own.last->turns += r->code;
  own.loop->reported += r->code;
  ShortChunks &found = run.whole->short_chunks[own.loop->code];
  found.times += (r->code + own.last_turns - 1) / own.last_turns;
  found.turns += r->code;
}

void Reader::chunk_begin() {
  ImplicitTask *own = in_loop();
  if (!own || own->kept) return;
  join_turns(*own);
  if (own->turns) return begin_piece(*own, true);
  if (own->chunk && std::exchange(own->all_turns, false)) {
    own->loop->reported = 0;
    put_chunk_back(*own);
  }
  begin_chunk(*own, r->task | uint64_t{r->other} << 32);
}

// In the text the part makes all chunks that its thread runs. It takes no time, and waits for none of them: so it is
// reported where the first began, from where on the text has them ready.
void Reader::tell_between(Task *t, const ImplicitTask &own) {
  put_empty_segment(t, t->segment, own.since, static_cast<uint16_t>(t->on->worker));
}

void Reader::begin_chunk(ImplicitTask &own, uint64_t turns) {
  Task *t = current_part();
  end_chunk(own);
  charge(t);
  if (!std::exchange(own.in_group, true)) {
    begin_group(t, own.loop->code);
    own.since = r->wall;
  }
  if (!t->running) tell_between(t, own);
  Task *chunk = own.chunk = create(t, false);
  t->region->chunks++;
  own.loop->reported += turns;
  own.left = run.whole->events.size() - 1;
  own.off = run.whole->off.seen();
  chunk->code = own.loop->code;
  chunk->of_loop = true;
  chunk->origin = own.loop->what == Divided::Sections ? Origin::Section : Origin::Turns;
  chunk->pieces = 1;
  own.last = &(t->region->is_of_host ? chunks_of_hosts : run.whole->chunk_list).emplace_back();
  own.last->loop = own.loop;
  own.last->turns = turns;
  own.last_turns = std::max<uint64_t>(turns, 1);
  own.last->task = chunk;
  own.last->thread = static_cast<uint16_t>(log->worker);
  begin(chunk);
}

void Reader::end_chunk(ImplicitTask &own) {
  Task *chunk = std::exchange(own.chunk, nullptr);
  if (!chunk) return;
  end(chunk);
  chunk->is_ended = true;
}

void Reader::divided_end() {
  ImplicitTask *own = in_loop();
  if (!own) return;
  Task *t = current_part();
  if (r->record_kind() == RecordKind::DividedEnd) join_turns(*own);
  end_chunk(*own);
  if (own->in_group) {
    if (!t->running) tell_between(t, *own);
    end_group(t, nullptr);
    begin(t);
  }
  if (own->turns) end_turns(*own);
  in_loops--;
  own->loop = nullptr;
  own->in_group = own->kept = own->all_turns = false;
}

// Whether the record is of a task that is made, or of a wait, in the code of a chunk.
bool Reader::is_construct_of_chunk(const ImplicitTask &own) const {
  if (!own.chunk || r->task != workers[log->worker].current.back()) return false;
  return is_construct(r->record_kind(), r->detail);
}

// Such tasks are those of the part, and such waits are for tasks of the part: so the chunk's code is code of the part.
void Reader::keep_divided() {
  ImplicitTask *own = in_loop();
  if (!own || !is_construct_of_chunk(*own)) return;
  own->loop->kept = own->kept = true;
  put_chunk_back(*own);
}

// Its code is the part's.
void Reader::put_chunk_back(ImplicitTask &own) {
  Task *t = current_part(), *chunk = own.chunk;
  size_t began = chunk->started;
  end_chunk(own);
  take_chunk_out(own, *t);
  run.whole->off.move(own.off, *chunk, *t, t->segment);
  take_over_steps(*t, *chunk);
  begin(t);
  if (run.whole->has_events) join_with_before(*t, own.left, run.whole->events[began].at);
}

// Its creation is the part's last step, and so is the group, where it is the first.
void Reader::take_chunk_out(ImplicitTask &own, Task &t) {
  bool is_last = t.steps.size() > 1 && t.steps.back().kind == Kind::Create && t.steps.back().child() == own.last->task;
  if (!is_last) refuse("a chunk is none of its loop");
  t.steps.pop_back();
  t.children--;
  t.segment--;
  bool is_first = t.steps.back().kind == Kind::GroupBegin;
  if (is_first) t.steps.pop_back(), t.open_groups--;
  else end_group(&t, nullptr);
  own.in_group = false;
}

// Code outside of regions ends with the program on the thread that ends it, or nobody knows when.
void Reader::end_outside(Task *t, int64_t end, int64_t wall) {
  if (!t->running) return;
  turn_to(*t->on);
  now = end - worker().stood_still - (log->stood_still - log->told_still);
  bool is_last = how.last && log->worker == how.last->worker;
  bool is_known = end && (!record_clock().of_processor || is_last);
  if (is_known) charge(t);
  else give_up_times();
  if (run.whole->has_events)
    run.whole->events.push_back({t, wall, t->segment, static_cast<uint16_t>(log->worker), false});
  t->running = false;
}

// When the threads that a program makes itself begin with their regions is not reported.
void Reader::put_hosts_beside() {
  close_tasks(of_hosts);
  Task *root = of_hosts.root = &of_hosts.tasks.emplace_front();
  for (Task *host : hosts) {
    if (!host->children) continue;
    add_step(*root, Step::create(host));
    host->parent = root;
    run.whole->remarks[Remark::OtherThread].add(nullptr);
  }
  of_hosts.has_auxiliary = run.whole->has_auxiliary;
  std::deque<Chunk> &chunks = run.whole->chunk_list;
  chunks.insert(chunks.begin() + static_cast<std::ptrdiff_t>(chunks_gone), chunks_of_hosts.begin(),
                chunks_of_hosts.end());
  put_stretch(of_hosts, begun_by_hosts, chunks_gone + chunks_of_hosts.size());
  before().put_last_first(*root);
}
