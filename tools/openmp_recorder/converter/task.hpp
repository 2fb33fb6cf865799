// A task of a recorded run with its steps.
#pragma once
#include <algorithm>
#include <cstdint>

#include "records.hpp"
#include "short_list.hpp"

struct Task;
struct Region;

enum class Kind : uint64_t { Work, Create, Wait, GroupBegin, GroupEnd };

// In eight bytes, since a run has millions: no cost is negative or takes two years, and no address has more bits.
class Step {
 public:
  Kind kind : 8;
  static Step work(int64_t cost) { return {Kind::Work, static_cast<uint64_t>(cost)}; }
  static Step create(Task *child) { return {Kind::Create, reinterpret_cast<uint64_t>(child)}; }
  static Step at(Kind kind, const void *code) { return {kind, reinterpret_cast<uint64_t>(code)}; }
  int64_t cost() const { return static_cast<int64_t>(value); }  // of Work, in nanoseconds
  Task *child() const { return reinterpret_cast<Task *>(uint64_t{value}); }  // of Create
  const void *code() const { return reinterpret_cast<const void *>(uint64_t{value}); }  // of Wait and the groups
  static Step number(uint64_t of_child) { return {Kind::Create, of_child}; }  // of Create in a file
  uint64_t number() const { return value; }
  void add_cost(int64_t more) { value += static_cast<uint64_t>(more); }

 private:
  uint64_t value : 56;
  Step(Kind what, uint64_t that) : kind(what), value(that) {}
};
static_assert(sizeof(Step) == 8, "a task has one to several");
inline bool ends_a_segment(const Step &step) {
  return step.kind == Kind::Create || step.kind == Kind::Wait || step.kind == Kind::GroupEnd;
}

// What a task of the text is in the program.
enum class Origin : uint8_t { Task, Turns, Section };  // `Turns` of a worksharing loop

// An item of `depend`, whose location has a number in the region.
struct Item {
  uint64_t location : 56;
  uint64_t type : 8;  // as OMPT has it
};

// A wait for dependences: of the undeferred task that follows, or a `taskwait` with `depend`.
struct DependWait {
  const void *code;
  int64_t end;  // on the clock of the thread, so far as is known
  const Log *log;  // of that thread
  ShortList<Item> items;
  bool has_ended = false;
  bool is_alone = false;  // no task that follows belongs to it
};

constexpr uint32_t none = UINT32_MAX;

// A run has millions of them. What is known while the records are read is not needed when it is written.
struct Task {
  bool part = false;  // the code of an implicit task between two barriers
  bool undeferred = false, untied = false;
  bool auxiliary = false;  // of a taskloop's, made by the runtime to make others
  bool of_loop = false;  // a taskloop's, or a chunk of a loop
  bool shown = true;  // it stands in the text
  bool is_released = false;  // with the beginning of the whole program
  Origin origin = Origin::Task;
  uint32_t pieces = 0;  // of a loop's chunk: so many tasks that share its cost stand for it; 0 for what is none
  unsigned segment = 0;  // the one that is open, counted within the task
  unsigned children = 0;
  ShortList<Step> steps;
  ShortList<Item> items;
  const void *code = nullptr;
  Task *parent = nullptr;
  union {
    struct {  // while the records are read
      Region *region;
      const Log *on;  // of the thread that runs it, or last did
      int64_t since;  // on that thread's clock
      size_t started;  // the event with which the running segment began
      DependWait *wait;  // for dependences, and not settled; its own
      const void *loop;  // the taskloop that it is in
      uint32_t interrupted;  // the task that the thread left for it, by number
      unsigned open_groups;  // of its own code
      uint32_t number;
      bool running, waiting, is_ended;
      bool is_of_host;  // is the code of a thread that the program made, or below it
    };
    struct {  // while it is written
      int64_t total;  // `work` with everything below it
      int64_t end, end_below;  // of its code and of all below it, from its start on as many threads as can be used
      unsigned outer_groups;  // of the parent, open where the task is created
      unsigned inner_groups;  // the most that are open at once in its own code
      unsigned blocks;  // open in its own code outside its own groups
      uint32_t first_number;  // the place of its segments among the region's numbers; none where it is not written
    };
  };
  Task() { begin_writing(); }
  Task(const Task &) = delete;
  void begin_reading(Region *of);
  void end_reading();

 private:
  void begin_writing();
};

inline void Task::begin_reading(Region *of) {
  region = of;
  on = nullptr;
  since = started = 0;
  wait = nullptr;
  loop = nullptr;
  interrupted = open_groups = number = 0;
  running = waiting = is_ended = is_of_host = false;
}

inline void Task::end_reading() {
  delete wait;
  begin_writing();
}

inline void Task::begin_writing() {
  total = end = end_below = 0;
  outer_groups = inner_groups = blocks = 0;
  first_number = none;
}

static_assert(sizeof(Task) == 136, "a million of them are to take 200 MB with their steps");

// How many tasks of the text it is, without those below it, and what of its cost the longest of them has.
inline uint32_t tasks_for(const Task &t) { return std::max<uint32_t>(t.pieces, 1); }
inline int64_t in_pieces(int64_t cost, const Task &t) { return t.pieces < 2 ? cost : (cost + t.pieces - 1) / t.pieces; }
