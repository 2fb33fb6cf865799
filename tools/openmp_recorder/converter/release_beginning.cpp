// The beginning of the whole program's text, up to a region that has ended in its root: where there are more tasks than
// are to be held when the next region begins, it is written to a file and let go.
#include <algorithm>

#include "auxiliary.hpp"
#include "pieces.hpp"
#include "place_region.hpp"
#include "reader.hpp"
#include "size.hpp"
#include "stretches.hpp"
#include "whole_program.hpp"

namespace {
constexpr uint64_t least_stretch = 1 << 14;  // tasks
}  // namespace

// Nothing that the root makes later depends on what it made before: parts stand in groups, and for each other task it
// waits at once.
void Reader::note_placed() {
  const Task &root = *run.whole->root;
  for (; may_release && seen_steps < root.steps.size(); seen_steps++) {
    const Step &step = root.steps[seen_steps];
    seen_groups += step.kind == Kind::GroupBegin;
    seen_groups -= step.kind == Kind::GroupEnd;
    if (step.kind == Kind::Create && !seen_groups && !step.child()->undeferred) may_release = false;
  }
  if (!may_release || seen_groups) return;
  placed.push_back({run.whole->tasks.begin_block(), root.steps.size(), run.whole->chunk_list.size(),
                    run.whole->loop_list.size(), begun.size(), run.whole->events.size()});
}

// No record that follows is of a task that was made until then. What has ended stays so.
bool Reader::is_ended_until(const Placed &end) {
  auto has_ended = [](const Region *region) { return region->is_ended && region->left_in_groups.empty(); };
  while (regions_ended < end.regions && has_ended(begun[regions_ended])) regions_ended++;
  if (regions_ended < end.regions) return false;
  auto is_done = [](const Task &t) { return t.is_ended; };
  while (blocks_ended < end.blocks && run.whole->tasks.all_of_block(blocks_ended, is_done)) blocks_ended++;
  return blocks_ended >= end.blocks;
}

void Reader::release_beginning() {
  const Task &root = *run.whole->root;
  if (!may_release || run.whole->tasks.size() <= room) return;
  size_t count = 0;
  while (count < placed.size() && is_ended_until(placed[count])) count++;
  // In a damaged log the root may have gone on before a region had ended.
  bool has_gone_on = count && run.whole->has_events && root.running && root.started < placed[count - 1].events;
  if (count && !has_gone_on) release_until(placed[count - 1]);
}

// In a damaged log a later region may have tasks that are released, or they may have made others since.
void Reader::take_from_later(size_t first) {
  for (const Task &t : run.whole->tasks)
    if (t.parent && t.parent->is_released) refuse("a task makes another after its region has ended");
  auto is_gone = [](const Part &part) { return part.task->is_released; };
  for (size_t i = first; i < begun.size(); i++) {
    Region &region = *begun[i];
    region.parts.erase(std::remove_if(region.parts.begin(), region.parts.end(), is_gone), region.parts.end());
    if (!region.left_in_groups.empty()) {
      std::vector<Part> &left = region.left_in_groups.made();
      left.erase(std::remove_if(left.begin(), left.end(), is_gone), left.end());
    }
    if (region.owner && region.owner->is_released) region.owner = run.whole->root;
  }
  for (auto &[number, own] : implicit)
    if (own.chunk && own.chunk->is_released) own.chunk = nullptr;
}

void Reader::release_until(const Placed &found) {
  const Placed end = found;
  Region stretch;
  stretch.tasks = run.whole->tasks.take(1, end.blocks);
  stretch.has_auxiliary = run.whole->has_auxiliary;
  stretch.has_events = run.whole->has_events;
  for (Task &t : stretch.tasks) t.is_released = true;
  take_from_later(end.regions);
  forget(stretch.tasks);
  stretch.root = &stretch.tasks.emplace_front();
  stretch.root->part = true;
  take_steps(*stretch.root, end.steps);
  for (size_t i = loops_gone; i < end.loops; i++)
    if (Loop &loop = run.whole->loop_list[i]; !loop.is_of_host) take_waits_off(loop);
  take_events(stretch, end.events);
  for (Task &t : stretch.tasks) {
    if (&t == stretch.root) continue;
    while (t.open_groups) end_group(&t, nullptr);
    t.end_reading();
  }
  put_stretch(stretch, {begun.begin(), begun.begin() + static_cast<std::ptrdiff_t>(end.regions)}, end.chunks);
  before().finest.add(*stretch.root);
  run.whole->off.release(*run.whole->root, *stretch.root);
  take_from_placed(end);
  leave_rows();
  room = std::min(room, least_stretch);
}

// All its threads have left it, and nothing names it.
bool Reader::is_over(const Region &region) {
  bool has_ended = region.is_ended && region.ended >= region.threads;
  return region.whole && region.is_released && has_ended && !region.is_named && !region.owner;
}

void Reader::leave_rows() {
  for (auto one = run.regions.begin(); one != run.regions.end();) {
    Region &region = *one->second;
    if (!is_over(region)) {
      ++one;
      continue;
    }
    run.rows.push_back(row_of(region));
    run.whole->cost_of_over += region.cost;
    if (!region.remarks.empty() || region.differing.is_made() || region.asleep.is_made())
      run.whole->of_over[region.number] = {std::move(region.remarks), std::move(region.differing),
                                           std::move(region.asleep)};
    over.add(region.number);
    one = run.regions.erase(one);
  }
}

// The first steps of the program's root are those of the stretch's.
void Reader::take_steps(Task &root, size_t count) {
  Task &whole = *run.whole->root;
  ShortList<Step> rest;
  for (uint32_t i = 0; i < whole.steps.size(); i++) {
    const Step &step = whole.steps[i];
    if (i >= count) {
      rest.push_back(step);
      continue;
    }
    add_step(root, step);
    if (step.kind == Kind::Create) step.child()->parent = &root;
  }
  whole.children -= root.children;
  whole.segment -= root.segment;
  whole.steps = std::move(rest);
}

// Up to the end, and what was reported of its tasks later. Segments of the program's root are numbered from the
// stretch's last one on, which is the first of what comes next.
void Reader::take_events(Region &stretch, size_t end) {
  if (!stretch.has_events) return;
  Task *root = run.whole->root;
  EventList &events = run.whole->events;
  for (size_t i = events.forgotten(); i < events.size(); i++) {
    Event &event = events[i];
    bool is_of_root = event.task == root;
    if (is_of_root && i >= end) event.segment -= stretch.root->segment;
    if (is_of_root ? i >= end : !event.task->is_released) continue;
    stretch.events.push_back(
        {is_of_root ? stretch.root : event.task, event.at, event.segment, event.worker, event.start, event.taken_back});
    event.task = root, event.taken_back = true;
  }
  events.forget(end);
}

Stretches &Reader::before() {
  if (!run.whole->before) run.whole->before = std::make_shared<Stretches>(how.beside);
  return *run.whole->before;
}

// With what is summed up at the end of all that is read, of these regions and the chunks up to one.
void Reader::put_stretch(Region &stretch, const std::vector<Region *> &regions, size_t chunks) {
  WholeProgram &whole = *run.whole;
  Stretches &all = before();
  leave_out_auxiliary(stretch);
  add_up(stretch);
  for (Region *region : regions) {
    all.beside.add(beside_each_other(region->parts));
    count_parts(whole, *region);
    region->parts = std::vector<Part>();
    region->is_released = true;
  }
  measure_chunks(whole, chunks_gone, chunks);
  put_finest_pieces(whole, chunks_gone, chunks);
  all.chunks.push_back(chunks);
  all.work += stretch.root->total;
  for (const Task &t : stretch.tasks) all.tasks += t.parent && !t.pieces;
  span_of(stretch, all.ends);
  if (whole.chunk_list.empty()) all.take_sums(stretch, how.unit);  // else it may be written with other pieces
  all.put(stretch);
  for (; chunks_gone < chunks; chunks_gone++)
    if (Chunk &chunk = whole.chunk_list[chunks_gone]; chunk.is_task) chunk.at = chunk.task->first_number;
}

void Reader::forget_loops(const Placed &end) {
  for (size_t i = 0; i < end.regions; i++)
    loops.erase(loops.lower_bound({begun[i]->number, 0}), loops.lower_bound({begun[i]->number + 1, 0}));
  for (size_t i = loops_gone; i < end.loops; i++) {
    const Loop *loop = &run.whole->loop_list[i];
    if (loop->is_of_host) continue;
    auto first = turn_locations.lower_bound({loop, {}}), last = first;
    for (; last != turn_locations.end() && last->first.first == loop; ++last) done.erase(last->second);
    turn_locations.erase(first, last);
  }
}

void Reader::take_from_placed(const Placed &gone) {
  forget_loops(gone);
  while (!placed.empty() && placed.front().blocks <= gone.blocks) placed.pop_front();
  for (Placed &later : placed) {
    later.blocks -= gone.blocks - 1;
    later.steps -= gone.steps;
    later.regions -= gone.regions;
  }
  begun.erase(begun.begin(), begun.begin() + static_cast<std::ptrdiff_t>(gone.regions));
  blocks_ended -= gone.blocks - 1;
  regions_ended -= gone.regions;
  seen_steps -= gone.steps;
  loops_gone = gone.loops;
}
