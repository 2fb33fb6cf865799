// A recorded run, as tasks with their steps and as events of their segments, region by region.
#pragma once
#include <cstdint>
#include <deque>
#include <map>
#include <memory>
#include <set>
#include <string>
#include <vector>

#include "event_list.hpp"
#include "locations.hpp"
#include "numbers.hpp"
#include "off_times.hpp"
#include "remarks.hpp"
#include "seldom.hpp"
#include "task_list.hpp"

// Code of a region in which the wall clock and the processor's differ, as the clock that costs are read on must not, or
// which it leaves out.
struct Differing {
  int64_t cost = 0, off = 0;  // of the code where they do by more than a twentieth; off the processor there
  Occurrences at;
  int64_t slightly = 0;  // off the processor in other code
  Occurrences slightly_at;
  void add(bool is_much, int64_t code_cost, int64_t off_there, const void *code) {
    if (!is_much) {
      slightly += off_there;
      if (off_there) slightly_at.add(code);
      return;
    }
    cost += code_cost;
    off += off_there;
    at.add(code);
  }
};

// Other programs had the processor of the thread for so long, while it ran a segment, counted within its task.
struct Preempted {
  const Task *task;
  unsigned segment;
  int64_t off;
};

// Where a region was met inside another one's task.
struct Met {
  Region *region = nullptr;
  const Log *by = nullptr;
  int64_t since = 0, passed = 0;  // on that thread's clock; until the end of its code in the region
};

struct Part {
  Task *task;
  unsigned phase;  // barriers before it
  size_t first;  // its first event
};

// The piece of a turn before a wait for another turn. Its cost may have the wait in it, of which no beginning is
// reported.
struct TurnWait {
  Task *piece;
  int64_t least, most;  // what the piece costs without the wait
  bool is_none;  // the other turn was done long before, so nothing was waited for
  size_t ended;  // the event with which it did
};

struct Turns;

// A worksharing loop, or sections, as the threads of a region met it.
struct Loop {
  Divided what = Divided::Loops;
  uint32_t number = 0;  // in their order
  const void *code = nullptr;
  uint64_t count = 0, reported = 0;  // turns: of the loop, and of the chunks that were reported
  bool kept = false;  // some of it, or all, is code of the parts, as this run divided it
  bool is_of_host = false;
  uint32_t order = 0;  // of an `ordered` loop: the location that its turns take in order
  Turns *in_order = nullptr;  // of the thread whose turn it is
  std::vector<TurnWait> waits;
  int64_t unwaited = INT64_MAX, inside = INT64_MAX;  // the shortest turn without waits, and after them
};

struct Chunk {
  Loop *loop = nullptr;
  uint64_t turns = 0;
  union {
    Task *task = nullptr;  // without `pieces` where it is code of its part
    uint64_t at;  // its number in the stretch with which it was let go
  };
  const Task *part = nullptr;  // that ran it; only compared
  int64_t cost = 0;
  bool is_task = false, makes_tasks = false;
  uint16_t thread = 0;
};

class CallPaths;
class Stretches;

struct Region {
  static void *operator new(size_t bytes);
  static void operator delete(void *memory, size_t bytes);
  uint32_t number = 0;
  const void *code = nullptr;
  unsigned asked = 0;  // how many threads its program asked for; 0 where that is not reported
  unsigned threads = 0, ended = 0;  // of its implicit tasks those that ended
  bool is_ended = false;  // by the thread that met it
  bool is_released = false;  // its tasks, though not its sums
  bool makes_tasks = false;  // where it was let go
  uint64_t place = 0;  // in the order of time, from 1
  uint64_t text = 0;  // the number of its text, from 1; 0 where none is written
  RegionTime time{};
  Met met;
  TaskList tasks;  // in the order of creation, each before those that it makes
  Seldom<Locations> locations;  // that its tasks name
  std::vector<Part> parts;
  Seldom<std::vector<Part>> left_in_groups;  // parts at a barrier inside a group, until it is over
  EventList events;
  bool has_events = true;  // else they are given up, since no times are wanted of so many tasks
  uint64_t created = 0;  // tasks
  uint64_t chunks = 0;  // of these, chunks of loops
  bool has_auxiliary = false;  // tasks
  bool is_named = false;  // by a region of the runtime that it met, or in a damaged log by a later part
  bool of_program = true;  // else of the runtime, for threads that it keeps for itself
  int64_t cost = 0;  // of all its code
  Seldom<std::map<LockName, LockUse>> locks;
  Seldom<Remarks> remarks;
  Task *root = nullptr;  // what is written
  int64_t work = 0, span = 0;  // in nanoseconds
  int64_t in_parts = 0, in_tasks = 0;  // the costs of parts without tasks, and of all else
  int64_t in_own_regions = 0;  // of the cost: what passed while a task was in a region of its own
  Seldom<Differing> differing;
  Seldom<Differing> asleep;  // by the wall clock: code in which the thread gave its processor up
  Seldom<std::vector<Preempted>> preempted;  // by the wall clock, where its clocks differ; not of the whole program
  int64_t untimed = 0;  // the wall clock in segments that were left in their midst, until they were
  Seldom<std::map<Divided, MostOccurrences>> divided;  // of the thread that met the most
  Column<uint32_t> numbers;  // of the segments in the text, task by task; none where one is part of a later one

  // where the whole program is one text
  Region *whole = nullptr;  // that its tasks stand in
  Task *owner = nullptr;  // met it, and it is not in its place yet
  bool is_of_host = false;  // as the owner
  bool resumes = false;  // the owner ran on the same thread
  int64_t met_at = 0;  // the wall clock
  size_t left = 0;  // the event with which the owner was left for it
  std::shared_ptr<Stretches> before;  // of the whole program: what of its text comes before, and was let go
  uint32_t opened = 0;  // segments of the text, with those of pieces
};

// Of a task's segment in the text that was written; none where it is not there by itself.
inline uint32_t number_in_text(const Task &t, unsigned segment, const Region &region) {
  bool is_there = t.first_number != none && segment <= t.segment && t.first_number + segment < region.numbers.size();
  return is_there ? region.numbers[t.first_number + segment] : none;
}

// The region whose text has the tasks of this one.
inline Region &home(Region &region) { return region.whole ? *region.whole : region; }

// The whole program, where that is asked for.
struct Run;

// What the table of regions has of one, and is left of one that is over.
struct RegionRow {
  uint32_t number = 0, text = 0, threads = 0, asked = 0, tasks = 0, loops = 0;
  bool of_program = true, is_in_whole = false;
  bool is_outermost = true;
  const void *code = nullptr;
  int64_t in_code = 0;
  int64_t begin = 0, end = 0;  // on the wall clock; an end that is not known is 0
  void set(const RegionTime &time) {
    begin = time.begin;
    end = time.end;
    is_outermost = time.is_outermost;
  }
};
RegionRow row_of(const Region &region);
void list_regions(Run &run);  // those that are not among the rows yet

// What the whole program has of a region beside that; most have nothing.
struct SeldomSums {
  Seldom<Remarks> remarks;
  Seldom<Differing> differing, asleep;
};

struct ShortChunks {
  uint64_t times = 0, turns = 0;
};

struct MostTurns {
  uint64_t turns = 0;
  unsigned threads = 0;
};

struct WholeProgram : Region {
  const Log *first = nullptr;  // the thread that meets the runtime first, whose code the root is
  uint64_t regions = 0, loops = 0, sections = 0, pieces = 0;  // `sections` by the construct
  int64_t least_piece = 0;  // of loops, in nanoseconds
  int64_t recorder = 0;  // its own time outside of regions, on the first thread
  OffTimes off;  // of its segments
  bool has_off = false;  // else the text has others than ran
  int64_t serial = 0, in_loops = 0;  // of the cost: outside of regions; in chunks of loops
  std::map<uint32_t, SeldomSums> of_over;  // of regions that are over, by number
  int64_t cost_of_over = 0;
  Numbers numbers;  // of the regions that are in the text
  std::map<const void *, ShortChunks> short_chunks;  // by the loop's code: those that began soon after others
  std::map<const void *, MostTurns> most_turns;  // by the loop's code: of one time, and the threads that divide them
  std::deque<Loop> loop_list;
  std::deque<Chunk> chunk_list;  // in the order in which they began
};

struct Run {
  std::map<uint32_t, std::unique_ptr<Region>> regions;  // by number, so in order
  std::vector<RegionRow> rows;  // of regions that are over and not among these; in the end of all
  Occurrences outside;  // tasks created outside any region
  std::unique_ptr<WholeProgram> whole;
};

// When recording ended before the runtime's own end; the clock of the records and the wall clock, 0 where it did not.
struct Ending {
  int64_t clock = 0, wall = 0;
  bool full = false;  // there was no room for more records
  bool killed = false;  // at the time of the last record; filled in where that was inside a region
  int64_t last = 0;  // the wall clock at the last record
};

struct HowToRead {
  uint64_t most_timed = UINT64_MAX;  // of a region with more tasks no events are kept
  bool whole = false;  // the whole program is to be one text
  int64_t start = 0, end = 0;  // of the program, on the clock of costs; an end that is not known is 0
  const Log *last = nullptr;  // of the thread that ended it, whose clock that is by the processor's
  bool times = false;  // of the whole program's segments
  int64_t start_wall = 0, end_wall = 0;  // of the program
  uint64_t most_held = UINT64_MAX;  // tasks of regions that have ended: beyond them each region is released as it ends
  std::set<uint32_t> held{};  // regions by number, that never are
  CallPaths *paths = nullptr;  // of creations, where they are distinguished
  std::string beside{};  // the first name of a file for what is let go of the whole program
  int64_t unit = 1;  // of its text, in nanoseconds
};

Run read_run(const std::vector<Records *> &threads, Ending &ending, const HowToRead &how = {});
