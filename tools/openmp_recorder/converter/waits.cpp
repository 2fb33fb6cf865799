// What a task waits for: dependences, barriers, groups, and `taskwait`.
#include <omp-tools.h>

#include <algorithm>

#include "log_damage.hpp"
#include "place_region.hpp"
#include "reader.hpp"
#include "runtime_ways.hpp"
#include "size.hpp"

namespace {
std::vector<const void *> open_groups_of(const Task &t) {
  std::vector<const void *> open;
  for (const Step &step : t.steps) {
    if (step.kind == Kind::GroupBegin) open.push_back(step.code());
    if (step.kind == Kind::GroupEnd) open.pop_back();
  }
  return open;
}

}  // namespace

void Reader::begin_group(Task *t, const void *code) {
  constexpr uint32_t usual = 8;  // with a group there are more than three
  t->steps.reserve(usual);
  t->steps.push_back(Step::at(Kind::GroupBegin, code));
  t->open_groups++;
}

void Reader::end_group(Task *t, const void *code) {
  if (!t->open_groups) throw DamagedLog("a group ends that is not open");
  t->steps.push_back(Step::at(Kind::GroupEnd, code));
  t->segment++;
  t->open_groups--;
}

void Reader::tell_empty_segment(Task *t) {
  put_empty_segment(t, t->segment, r->wall, static_cast<uint16_t>(t->on->worker));
}

void Reader::put_empty_segment(Task *t, unsigned segment, int64_t at, uint16_t worker) {
  if (Region &to = home(*t->region); to.has_events) ::put_empty_segment(to.events, *t, segment, {at, worker});
}

// `ordered depend` names the turn that the thread's code is in, and no task.
bool Reader::is_between_turns() {
  if (!r->code) return false;
  uint64_t type = log->items[r->other].type;
  if (!waits_for_turns(static_cast<uint32_t>(type))) return false;
  if (type == ompt_dependence_type_source ? turn_done() : turn_awaited()) return true;
  Task *t = running();
  if (t && type == ompt_dependence_type_sink)
    remark(t->region, Remark::BetweenTurns, t->part ? t->region->code : t->code);
  return true;
}

void Reader::dependences() {
  if (is_between_turns()) return;
  Task *t = find(r->task);
  bool of_a_wait = !t && !worker().waits.empty() && worker().waits.back()->wait;
  if (of_a_wait) t = worker().waits.back();
  if (!t) return;
  const void *code = of_a_wait ? t->wait->code : t->code;
  ShortList<Item> &items = of_a_wait ? t->wait->items : t->items;
  items.reserve(static_cast<uint32_t>(std::min<uint64_t>(items.size() + r->code, most_items)));
  for (uint64_t i = 0; i < r->code; i++) {
    const DependItem &item = log->items[r->other + i];
    if (!item.address) {
      remark(t->region, Remark::AllMemory, code);
      continue;
    }
    if (items.size() == most_items) {
      remark(t->region, Remark::ItemsLeftOut, code);
      continue;
    }
    if (item.type == ompt_dependence_type_mutexinoutset) remark(t->region, Remark::MutexInOutSet, code);
    else if (item.type < ompt_dependence_type_in ||
             (item.type > ompt_dependence_type_inout && item.type != ompt_dependence_type_inoutset))
      remark(t->region, Remark::UnknownItem, code);
    items.push_back({home(*t->region).locations->number(item.address), item.type});
  }
}

void Reader::barrier_begin(Task *t) {
  divided_end();  // which a cancelled loop may not report
  end(t);
  t->is_ended = true;
  if (!t->open_groups) return;
  ImplicitTask &own = implicit[r->task];
  t->region->left_in_groups->push_back({t, own.phase, 0});
  own.groups = open_groups_of(*t);
}

// A barrier waits for all tasks of the region, so for those of the groups around it too: each such group ends there,
// and what follows the barrier is a group of the next part. No part goes on before all that were left are at their
// ends.
void Reader::end_groups_at_barrier(Region &region, unsigned phase) {
  if (region.left_in_groups.empty()) return;
  std::vector<Part> &all = region.left_in_groups.made();
  auto at_this_barrier = [&](const Part &left) { return left.phase == phase; };
  for (const Part &left : all)
    while (at_this_barrier(left) && left.task->open_groups) {
      end_group(left.task, nullptr);
      tell_empty_segment(left.task);
    }
  all.erase(std::remove_if(all.begin(), all.end(), at_this_barrier), all.end());
}

void Reader::barrier_end(Task *t) {
  if (!t->is_ended || r->detail == ompt_sync_region_barrier_implicit_parallel)
    return;  // nothing follows a region's end
  end_groups_at_barrier(*t->region, implicit[r->task].phase++);
  Task *part = add_part(r->task, t->region);
  for (const void *code : std::exchange(implicit[r->task].groups, {})) begin_group(part, code);
}

void Reader::sync_begin() {
  Task *t = find(r->task);
  if (!t || t->is_ended) return;
  settle(t);
  switch (r->detail) {
    case ompt_sync_region_taskwait:
      begin(t);
      end(t);
      t->steps.push_back(Step::at(Kind::Wait, r->place()));
      t->segment++;
      t->waiting = true;
      break;
    case ompt_sync_region_taskgroup:
      charge(t);
      begin_group(t, r->place());
      break;
    case ompt_sync_region_reduction: break;
    default:
      if (!t->parent && !is_host(t)) barrier_begin(t);
  }
}

void Reader::sync_end() {
  Task *t = find(r->task);
  if (!t) return;
  switch (r->detail) {
    case ompt_sync_region_taskwait:
    case ompt_sync_region_taskgroup:
      if (t->is_ended) return;
      t->waiting = false;
      begin(t);
      break;
    case ompt_sync_region_reduction: break;
    default:
      if (!t->parent && !is_host(t)) barrier_end(t);
  }
}

void Reader::group_end_begin() {
  Task *t = find(r->task);
  if (!t || t->is_ended || !t->open_groups) return;
  settle(t);
  begin(t);
  end(t);
  end_group(t, r->place());
  t->waiting = true;
}
