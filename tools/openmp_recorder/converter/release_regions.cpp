// Regions that have ended. Few of them are written, and all together may hold more than there is memory for. So beyond
// some tasks each is let go, but for the sums that the choice goes by; what is chosen is read again. The last one is
// held until another makes a task: with one large region nothing is read twice.
#include <algorithm>

#include "auxiliary.hpp"
#include "compose.hpp"
#include "reader.hpp"
#include "table_memory.hpp"

// They come and go by the million.
void *Region::operator new(size_t bytes) { return table_memory::get(bytes); }
void Region::operator delete(void *memory, size_t bytes) { table_memory::give_back(memory, bytes); }

// No record that follows is of one of its tasks.
bool Reader::is_ended(const Region &region) const {
  auto is_open = [](const Task &t) { return !t.is_ended && t.parent && !t.part; };
  return region.is_ended && region.ended >= region.threads && region.left_in_groups.empty() &&
         std::none_of(region.tasks.begin(), region.tasks.end(), is_open);
}

void Reader::release_if_ended(Region &region) {
  bool is_inside = region.met.region;  // another one, which is compared with it in the end
  bool is_needed = run.whole || is_inside || how.held.count(region.number);
  if (how.most_held == UINT64_MAX || is_needed || &region == last_ended || !is_ended(region)) return;
  if (held + region.tasks.size() <= how.most_held) held += region.tasks.size();
  else if (region.created) release_last(), last_ended = &region;
  else release(region);
}

void Reader::release_last() {
  if (last_ended) release(*std::exchange(last_ended, nullptr));
}

// By whatever they are known.
void Reader::forget(const TaskList &all) {
  for (const Task &t : all)
    if (find(t.number) == &t) tasks.put(t.number, nullptr);
  auto is_of_it = [&](const Task *t) { return t && find(t->number) != t; };
  for (Worker &w : workers) {
    w.waits.erase(std::remove_if(w.waits.begin(), w.waits.end(), is_of_it), w.waits.end());
    if (is_of_it(w.resumed.task) || is_of_it(w.resumed.left)) w.resumed = {};
  }
}

void Reader::release(Region &region) {
  forget(region.tasks);
  for (Task &t : region.tasks) t.end_reading();
  leave_out_auxiliary(region);
  region.makes_tasks = makes_tasks(region);
  if (region.makes_tasks) divide_work(region);
  region.is_released = true;
  region.parts = std::vector<Part>();
  region.left_in_groups.clear();
  region.events = EventList();
  region.has_events = false;
  region.locations.clear();
  region.tasks.clear();
  region.preempted.clear();
}
