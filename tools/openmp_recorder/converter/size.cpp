#include "size.hpp"

#include <algorithm>

namespace {
constexpr int64_t most_work = 1000000000000, most_total = 1000000000000000;

// The largest `work` of a task.
int64_t largest_piece(const Task &t) {
  int64_t piece = 0, largest = 0;
  for (const Step &step : t.steps) {
    piece = step.kind == Kind::Work ? piece + step.cost() : 0;
    largest = std::max(largest, piece);
  }
  return largest;
}

// All but the largest piece.
void count(const Task &t, Size &size) {
  if (t.parent) {
    size.tasks += tasks_for(t);
    size.segments += 2 * tasks_for(t);
    size.items = std::max<uint64_t>(size.items, t.items.size());
  }
  size.blocks = std::max<uint64_t>(size.blocks, t.blocks + t.inner_groups);
  size.segments += t.segment - t.children;  // waits, and ends of groups
}

void count_piece(const Task &t, Size &size) {
  if (t.total <= size.largest) return;  // no piece of it is larger
  size.largest = std::max(size.largest, in_pieces(largest_piece(t), t));
}

// Of the tasks that a task with groups makes; without groups none are open there.
void count_outer_groups(const Task &maker) {
  unsigned groups = 0;
  for (const Step &step : maker.steps) {
    if (step.kind == Kind::GroupBegin) groups++;
    if (step.kind == Kind::GroupEnd) groups--;
    if (step.kind == Kind::Create) step.child()->outer_groups = groups;
  }
}

// The steps of a task, without those of the tasks that it makes.
void add_up_steps(Task &t) {
  unsigned groups = 0, most = 0;
  int64_t total = 0;
  for (const Step &step : t.steps) {
    if (step.kind == Kind::Work) total += step.cost();
    else if (step.kind == Kind::GroupBegin) most = std::max(most, ++groups);
    else if (step.kind == Kind::GroupEnd) groups--;
  }
  t.total = total;
  t.inner_groups = most;
  if (t.inner_groups && t.children) count_outer_groups(t);
}
}  // namespace

int64_t own_cost(const Task &t) {
  int64_t cost = 0;
  for (const Step &step : t.steps) cost += step.kind == Kind::Work ? step.cost() : 0;
  return cost;
}

void Size::add(const Size &next) {
  tasks += next.tasks;
  segments += next.segments - 1;  // the root's first
  blocks = std::max(blocks, next.blocks);
  items = std::max(items, next.items);
  largest = std::max(largest, next.largest);
  total += next.total;
}

void add_up(Region &region) {
  for (Task &t : region.tasks) add_up_steps(t);
  for (auto t = region.tasks.rbegin(); t != region.tasks.rend(); ++t)
    if (t->parent) t->parent->total += t->total;
}

Size size_of(Region &region) {
  Size size;
  for (Task &t : region.tasks) {
    t.shown = t.parent ? t.parent->shown : &t == region.root;
    if (!t.shown) continue;
    t.blocks = t.parent ? t.parent->blocks + t.outer_groups + 1 : 0;
    count(t, size);
    count_piece(t, size);
  }
  size.total = region.root->total;
  return size;
}

Excess over_the_limits(const Size &size, int64_t unit) {
  if (size.blocks > most_blocks) return {"blocks", size.blocks, most_blocks};
  if (size.items > most_items) return {"items", size.items, most_items};
  if (size.largest / unit >= most_work) return {"piece", static_cast<uint64_t>(size.largest / unit), most_work};
  if (size.total / unit >= most_total) return {"work", static_cast<uint64_t>(size.total / unit), most_total};
  return {};
}
