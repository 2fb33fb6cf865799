// Reads the records in their order and makes tasks, steps and events of them. README.md lists what the runtime reports
// at each construct, and in which order. Its functions stand in run.cpp, release_*.cpp, waits.cpp, whole.cpp and
// turns.cpp.
#pragma once
#include <cstdint>
#include <map>
#include <unordered_map>
#include <utility>
#include <vector>

#include "run.hpp"
#include "task_numbers.hpp"

// A task that goes on where another was left, unless the thread's next record is of that one.
struct Resumed {
  Task *task = nullptr;
  const Task *left = nullptr;
  int64_t since = 0, at = 0;  // on the thread's clock, and on the wall clock
};

struct Worker {
  int64_t stood_still = 0;  // its clock, so far
  int64_t worked = 0, compared = 0;  // in code so far, and when both clocks were compared last
  const Task *outside = nullptr;  // of a whole program: its code outside of regions
  std::map<std::pair<uint32_t, Divided>, Occurrences>
      divided;  // that it met in regions which it has not left, by number
  std::vector<uint32_t> current;  // the task that runs, innermost region last
  std::vector<Task *> waits;  // tasks whose wait for dependences it is in, innermost last
  Resumed resumed;
};

// The turns of a loop that the thread runs: what comes before and after the loop, and the pieces of one turn, share a
// location each, since what waits for each other is in their `depend`.
struct Turns {
  uint32_t around = 0, turn = 0;
  int64_t since = 0;  // the running piece, on the wall clock
  bool waited = false;  // in this turn
  bool after_a_wait = false;  // the running piece began where a wait for other turns was over
  int64_t released = 0;  // when the next turn in order began, where that was reported first; on the wall clock
};

struct ImplicitTask {
  uint32_t region = 0;  // its number
  unsigned phase = 0;  // barriers before it
  std::vector<const void *> groups;  // that are open around the barrier that it is at
  unsigned loops = 0;  // that it met
  Loop *loop = nullptr;  // that it is in
  Task *chunk = nullptr;  // of it, that runs
  Chunk *last = nullptr;  // that began
  uint64_t last_turns = 1;  // its own
  size_t left = 0;  // the event with which the part was left for it
  size_t off = 0;  // times off the processor, up to where it began
  bool in_group = false;  // of the chunks
  int64_t since = 0;  // the first of them, on the wall clock
  bool all_turns = false;  // are taken to be the chunk
  bool kept = false;  // the rest of the loop is code of the part
  std::unique_ptr<Turns> turns;  // of the loop, where they wait for each other
};

class Reader {
 public:
  explicit Reader(const HowToRead &how);
  Run run;
  void read(const Record &record, const Log &log);
  void stop(const Log &log, int64_t at);
  void close(int64_t end, int64_t wall);  // of the program, on the clock of costs and on the wall clock

 private:
  HowToRead how;
  const Record *r = nullptr;
  const Log *log = nullptr;
  int64_t now = 0;  // on the thread's own clock
  TaskNumbers tasks;  // of an implicit task its part
  std::unordered_map<uint32_t, ImplicitTask> implicit;  // by number
  std::vector<Worker> workers;
  Worker *turned_to = nullptr;  // that of the log

  Task *find(uint32_t number) const { return tasks.find(number); }
  void put(uint32_t number, Task *task) {
    if (!number) return;
    tasks.put(number, task);
    if (task) task->number = number;
  }
  Worker &worker() { return *turned_to; }
  void turn_to(const Log &of) {
    if (log == &of) return;
    log = &of;
    if (of.worker >= workers.size()) workers.resize(of.worker + 1);
    turned_to = &workers[of.worker];
  }
  std::vector<uint32_t> &current() { return worker().current; }
  bool is_in(uint32_t number) { return !current().empty() && current().back() == number; }
  Task *current_part();  // of the implicit task that the thread is in
  Task *running();
  static void remark(Region *region, Remark what, const void *code) { region->remarks[what].add(code); }
  [[noreturn]] void refuse(const char *why) const;  // what the runtime never reports

  // run.cpp: tasks, and what runs
  Task *fresh(Region *region, bool is_of_host);
  Task *add_part(uint32_t number, Region *region);
  void charge(Task *t);
  void begin(Task *t);
  void begin(Task *t, int64_t since, int64_t at);
  void end(Task *t);
  void leave(Task *t);
  bool can_go_on(const Task *t) const { return t && !t->waiting && !t->is_ended && !t->wait; }
  void take_up();
  void end_unless_reported();
  int64_t now_elsewhere(const Task *t);
  void end_elsewhere(Task *t);
  void leave_elsewhere(Task *t);
  void count_task(Region &of);
  Task *create(Task *parent, bool undeferred);
  void settle(Task *parent);
  void parallel_begin();
  void look_at_new_part(uint32_t number) const;
  void implicit_begin();
  void leave_region(Met &met);
  void leave_released(uint32_t number);
  void implicit_end();
  void count_divided();
  void hand_on_divided(unsigned thread, uint32_t first, uint32_t last);
  const void *place_in(const Task &maker) const;
  void task_create();
  void loop_begin();
  void schedule();
  void compare_clocks();
  void count_off(Task &t);
  void close_tasks(Region &region);
  void close_whole(int64_t end, int64_t wall);

  // release_regions.cpp: the memory of regions that have ended
  uint64_t held = 0;  // their tasks
  Region *last_ended = nullptr;  // apart from them, until another region makes a task
  bool is_ended(const Region &region) const;
  void release_if_ended(Region &region);
  void forget(const TaskList &all);
  void release(Region &region);
  void release_last();

  // release_beginning.cpp: that of the beginning of the whole program, up to a region that has ended
  struct Placed {  // a region in the root; what there was until its end, of what is there
    size_t blocks, steps, chunks, loops, regions, events;
  };
  std::deque<Placed> placed;
  std::vector<Region *> begun;  // regions, in their order
  size_t blocks_ended = 1, regions_ended = 0;  // of tasks; of those that began
  size_t seen_steps = 0, chunks_gone = 0, loops_gone = 0;
  unsigned seen_groups = 0;  // that are open after these steps of the root
  uint64_t room = 0;  // tasks that may be there before the beginning is let go
  bool may_release = false;
  void note_placed();
  bool is_ended_until(const Placed &end);
  void release_beginning();
  void release_until(const Placed &end);
  void take_from_later(size_t first);
  void take_steps(Task &root, size_t count);
  void take_events(Region &stretch, size_t end);
  Stretches &before();
  void put_stretch(Region &stretch, const std::vector<Region *> &regions, size_t chunks);
  void forget_loops(const Placed &end);
  void take_from_placed(const Placed &gone);
  Numbers over;  // regions of which a row is left
  static bool is_over(const Region &region);
  void leave_rows();

  // waits.cpp: dependences, barriers, groups, `taskwait`
  static void begin_group(Task *t, const void *code);
  static void end_group(Task *t, const void *code);
  bool is_between_turns();
  void dependences();
  void barrier_begin(Task *t);
  void tell_empty_segment(Task *t);
  static void put_empty_segment(Task *t, unsigned segment, int64_t at, uint16_t worker);
  void end_groups_at_barrier(Region &region, unsigned phase);
  void barrier_end(Task *t);
  void sync_begin();
  void sync_end();
  void group_end_begin();
  void cancel();
  void take_sample();

  // whole.cpp: the whole program as one text
  std::map<std::pair<uint32_t, unsigned>, Loop *> loops;  // by region, and how many the threads met there before
  // The code outside of regions of threads but the first, and all below it: it is held until the end, and stands first.
  std::vector<Task *> hosts;
  Region of_hosts;
  std::vector<Region *> begun_by_hosts;
  std::deque<Chunk> chunks_of_hosts;
  unsigned in_loops = 0;  // implicit tasks
  bool is_host(const Task *t) const { return run.whole && t->part && t->region == run.whole.get(); }
  void begin_root();
  void initial_begin();
  void meet_region(Region &region);
  void parallel_end();
  void put_in_its_place(Region &region);
  void join_with_before(Task &t, size_t end, int64_t since);
  void give_up_times();
  bool is_to_divide(const Region &region) const;
  Loop &loop_of(uint32_t region, unsigned number);
  ImplicitTask *in_loop();
  void divided_begin();
  void chunk_begin();
  void tell_between(Task *t, const ImplicitTask &own);
  void count_turns(const Loop &loop, const Region &region);
  void begin_chunk(ImplicitTask &own, uint64_t turns);
  void join_turns(const ImplicitTask &own);
  void end_chunk(ImplicitTask &own);
  void divided_end();
  bool is_construct_of_chunk(const ImplicitTask &own) const;
  void keep_divided();
  void put_chunk_back(ImplicitTask &own);
  void take_chunk_out(ImplicitTask &own, Task &t);
  void end_outside(Task *t, int64_t end, int64_t wall);
  void put_hosts_beside();

  // turns.cpp: turns of loops that wait for each other
  std::map<std::pair<const Loop *, std::vector<uint64_t>>, uint32_t> turn_locations;  // by the turn's numbers
  std::unordered_map<uint32_t, int64_t> done;  // when a location's turn was, on the wall clock
  std::unordered_map<uint32_t, int64_t> awaited;  // when a piece began that waited for it, reported before it was done
  uint64_t made_locations = 0;
  uint32_t made_location();
  uint32_t location_of_turn(const Loop &loop);
  bool has_turns_apart(ImplicitTask &own);
  void begin_piece(ImplicitTask &own, bool of_next_turn);
  bool turn_done();
  bool turn_awaited();
  void order_got();
  void order_left();
  size_t end_before_last() const;
  void ended_by(const Task &piece, int64_t at);
  void end_earlier(const TurnWait &wait, int64_t by);
  void end_turns(ImplicitTask &own);
  void take_waits_off(Loop &loop);
};
