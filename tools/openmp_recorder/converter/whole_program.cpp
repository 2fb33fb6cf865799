#include "whole_program.hpp"

#include <algorithm>
#include <utility>
#include <vector>

#include "pieces.hpp"
#include "size.hpp"
#include "stretches.hpp"

namespace {
// Whether a part creates tasks of the program, beside pieces of loops.
bool makes_tasks(const Task &part) {
  return part.children && std::any_of(part.steps.begin(), part.steps.end(), [](const Step &step) {
           return step.kind == Kind::Create && !step.child()->pieces;
         });
}

void add_differing(Differing &all, const Differing &more) {
  all.cost += more.cost;
  all.off += more.off;
  all.slightly += more.slightly;
  all.at.add(more.at);
  all.slightly_at.add(more.slightly_at);
}

// Phases of different regions have different numbers.
void take_over_parts(WholeProgram &whole, Region &region) {
  unsigned first = whole.parts.empty() ? 0 : whole.parts.back().phase + 1;
  for (const Part &part : region.parts) whole.parts.push_back({part.task, first + part.phase, 0});
  count_parts(whole, region);
  region.parts = std::vector<Part>();
}

void add_seldom(WholeProgram &whole, const Remarks &remarks, const Differing &differing, const Differing &asleep) {
  for (auto &[what, seen] : remarks) whole.remarks[what].add(seen);
  add_differing(whole.differing.made(), differing);
  add_differing(whole.asleep.made(), asleep);
}

void take_over(WholeProgram &whole, Region &region) {
  whole.regions++;
  whole.cost += region.cost;
  whole.in_tasks += region.cost;
  take_over_parts(whole, region);
  add_seldom(whole, region.remarks, region.differing, region.asleep);
}

// In the order of their numbers, with those that are over.
void take_over_all(WholeProgram &whole, Run &run) {
  whole.regions = run.rows.size();
  whole.cost += whole.cost_of_over;
  whole.in_tasks += whole.cost_of_over;
  auto over = whole.of_over.begin(), end = whole.of_over.end();
  auto add_until = [&](uint64_t number) {
    for (; over != end && over->first < number; ++over)
      add_seldom(whole, over->second.remarks, over->second.differing, over->second.asleep);
  };
  for (auto &[number, region] : run.regions) {
    add_until(number);
    if (region->whole) take_over(whole, *region);
  }
  add_until(UINT64_MAX);
}

// At once. A region inside another one has the thread of it that met it.
unsigned most_threads(const Run &run) {
  std::vector<std::pair<int64_t, int>> changes;
  for (const RegionRow &row : run.rows) {
    int more = static_cast<int>(row.threads) - !row.is_outermost;
    if (row.is_in_whole) changes.insert(changes.end(), {{row.begin, more}, {row.end, -more}});
  }
  std::sort(changes.begin(), changes.end());
  int now = 0, most = 1;
  for (auto [time, more] : changes) most = std::max(most, now += more);
  return most;
}

// What stays as this run divided it: where chunks are not told, or make tasks.
void count_loops(WholeProgram &whole) {
  for (const Loop &loop : whole.loop_list)
    if (loop.kept || (loop.count && !loop.reported)) whole.divided[loop.what].add(loop.code);
    else (loop.what == Divided::Loops ? whole.loops : whole.sections)++;
}
}  // namespace

void count_parts(WholeProgram &whole, const Region &region) {
  for (const Part &part : region.parts)
    if (part.task->pieces) whole.in_loops += own_cost(*part.task), whole.pieces++;
    else if (!makes_tasks(*part.task)) whole.in_parts += own_cost(*part.task);
}

void finish_whole(Run &run, const RegionTime &time, int64_t unit) {
  WholeProgram &whole = *run.whole;
  whole.time = time;
  whole.serial = whole.cost;
  size_t parts = 0;
  for (auto &[number, region] : run.regions) parts += region->parts.size();
  whole.parts.reserve(parts);
  take_over_all(whole, run);
  list_regions(run);
  add_up(whole);
  whole.work = whole.root->total + (whole.before ? whole.before->work : 0);
  measure_chunks(whole, whole.before ? whole.before->chunks.back() : 0, whole.chunk_list.size());
  whole.in_tasks -= whole.in_parts + whole.in_loops;
  whole.threads = most_threads(run);
  count_loops(whole);
  choose_pieces(whole, unit);
}
