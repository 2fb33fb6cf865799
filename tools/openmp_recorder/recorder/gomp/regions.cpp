// Parallel regions. A thread of the runtime's comes back from its part before the region ends, and nothing is called
// there: its end is told when it begins its next part.
#include <memory>

#include "callbacks.hpp"
#include "construct.hpp"
#include "here.hpp"
#include "own.hpp"
#include "turns.hpp"
#include "waits.hpp"

namespace {
struct Divided {  // at the beginning of a part
  ompt_work_t what{};
  uint64_t turns = 0;
  int64_t step = 0;
};

// All threads of the region read it, and it lives until the region has ended. Once they have begun only `copied` is
// written, between two barriers.
struct Team {
  void *first;  // word of the data: the runtime reads it where there are reductions
  Code code;
  void *data;
  const void *place;
  const Here *master;
  Divided divided;
  ompt_data_t region;
  void *copied;
};

// Of the thread that begins a region its end is told where the region ends.
void end_part(Here &own, const Team &team, bool is_master) {
  // By value: the team may be gone before this thread's next part.
  own.has_left = !is_master;
  own.left = team.region;
  own.left_place = team.place;
  on_sync(ompt_sync_region_barrier_implicit_parallel, ompt_scope_begin, nullptr, &implicit_task, team.place);
}

// The thread's state is that of no other part: whatever a thread of the runtime kept from its last region goes.
void begin_part(Here &own, Team &team) {
  own.task = &implicit_task;
  own.in_team = true;
  own.is_final = false;
  own.in_divided = false;
  own.copied = &team.copied;
  // Inside of the part: before it the runtime would answer with the team around.
  on_implicit_task(ompt_scope_begin, &team.region, nullptr, threads_here(), 0, ompt_task_implicit);
  own.step = team.divided.step;
  if (team.divided.what) begin_divided(team.divided.what, team.divided.turns, team.place);
}

// The runtime calls it on each thread of the team, the one that began the region too.
void run_part(void *of) {
  Team &team = *static_cast<Team *>(of);
  Here &own = here(true);
  // Compared by the address of its thread-local storage.
  bool is_master = team.master == &own;
  if (!is_master) tell_left(own);
  begin_part(own, team);
  team.code(team.data);
  end_part(own, team, is_master);
}

// While it stands the calling thread begins the region and waits for its end.
// Its constructor must run before the runtime begins the region, and its destructor after all threads have left.
class Region {
 public:
  Region(Code code, void *data, unsigned asked, const void *call, Divided divided = {})
      : team{nullptr, code, data, place_of(code, call), &own, divided, {0}, nullptr} {
    on_parallel_begin(own.task, nullptr, &team.region, asked ? asked : most_threads_here(), 0, team.place);
  }
  ~Region() {
    on_sync(ompt_sync_region_barrier_implicit_parallel, ompt_scope_end, nullptr, &implicit_task, team.place);
    on_implicit_task(ompt_scope_end, &team.region, nullptr, 0, 0, ompt_task_implicit);
    // All of it, since the region changed each part; the end of the region belongs to the task around it.
    own = before;
    on_parallel_end(&team.region, own.task, 0, team.place);
  }
  Region(const Region &) = delete;

 private:
  Here &own = here();
  Here before = own;

 public:
  Team team;
};

Divided loop(long from, long to, long step) { return {ompt_work_loop, turns_between(from, to, step), step}; }

// As gcc before 4.9 wrote it: the thread goes on with its part by itself, until it calls for the region's end.
// The region outlives this call, so it is on the heap: `GOMP_parallel_end` gets it from `own.region` and deletes it.
template <class Own, class... Asked>
void begin_apart(Region *region, Own own_start, unsigned threads, Asked... asked) {
  own_start(run_part, &region->team, threads, asked...);
  Here &own = here();
  begin_part(own, region->team);
  own.region = region;
}
}  // namespace

// In these entries the region lies on the stack: when the runtime's call returns, all threads have left its code.
ENTRY void GOMP_parallel(Code code, void *data, unsigned threads, unsigned flags) {
  ENTER(GOMP_parallel, code, data, threads, flags);
  Region region(code, data, threads, PLACE);
  own_GOMP_parallel(run_part, &region.team, threads, flags);
}

ENTRY unsigned GOMP_parallel_reductions(Code code, void *data, unsigned threads, unsigned flags) {
  ENTER(GOMP_parallel_reductions, code, data, threads, flags);
  Region region(code, data, threads, PLACE);
  region.team.first = *static_cast<void **>(data);
  return own_GOMP_parallel_reductions(run_part, &region.team, threads, flags);
}

ENTRY void GOMP_parallel_sections(Code code, void *data, unsigned threads, unsigned count, unsigned flags) {
  ENTER(GOMP_parallel_sections, code, data, threads, count, flags);
  Region region(code, data, threads, PLACE, {ompt_work_sections, count, 0});
  own_GOMP_parallel_sections(run_part, &region.team, threads, count, flags);
}

#define PARALLEL_LOOP(name)                                                                           \
  ENTRY void name(Code code, void *data, unsigned threads, long from, long to, long step, long chunk, \
                  unsigned flags) {                                                                   \
    ENTER(name, code, data, threads, from, to, step, chunk, flags);                                   \
    Region region(code, data, threads, PLACE, loop(from, to, step));                                  \
    own_##name(run_part, &region.team, threads, from, to, step, chunk, flags);                        \
  }
PARALLEL_LOOP(GOMP_parallel_loop_static)
PARALLEL_LOOP(GOMP_parallel_loop_dynamic)
PARALLEL_LOOP(GOMP_parallel_loop_guided)
PARALLEL_LOOP(GOMP_parallel_loop_nonmonotonic_dynamic)
PARALLEL_LOOP(GOMP_parallel_loop_nonmonotonic_guided)

#define PARALLEL_LOOP_BY_SETTING(name)                                                                      \
  ENTRY void name(Code code, void *data, unsigned threads, long from, long to, long step, unsigned flags) { \
    ENTER(name, code, data, threads, from, to, step, flags);                                                \
    Region region(code, data, threads, PLACE, loop(from, to, step));                                        \
    own_##name(run_part, &region.team, threads, from, to, step, flags);                                     \
  }
PARALLEL_LOOP_BY_SETTING(GOMP_parallel_loop_runtime)
PARALLEL_LOOP_BY_SETTING(GOMP_parallel_loop_nonmonotonic_runtime)
PARALLEL_LOOP_BY_SETTING(GOMP_parallel_loop_maybe_nonmonotonic_runtime)

ENTRY void GOMP_parallel_start(Code code, void *data, unsigned threads) {
  ENTER(GOMP_parallel_start, code, data, threads);
  begin_apart(new Region(code, data, threads, PLACE), own_GOMP_parallel_start, threads);
}

ENTRY void GOMP_parallel_sections_start(Code code, void *data, unsigned threads, unsigned count) {
  ENTER(GOMP_parallel_sections_start, code, data, threads, count);
  begin_apart(new Region(code, data, threads, PLACE, {ompt_work_sections, count, 0}), own_GOMP_parallel_sections_start,
              threads, count);
}

#define PARALLEL_LOOP_START(name)                                                                                  \
  ENTRY void name(Code code, void *data, unsigned threads, long from, long to, long step, long chunk) {            \
    ENTER(name, code, data, threads, from, to, step, chunk);                                                       \
    begin_apart(new Region(code, data, threads, PLACE, loop(from, to, step)), own_##name, threads, from, to, step, \
                chunk);                                                                                            \
  }
PARALLEL_LOOP_START(GOMP_parallel_loop_static_start)
PARALLEL_LOOP_START(GOMP_parallel_loop_dynamic_start)
PARALLEL_LOOP_START(GOMP_parallel_loop_guided_start)

ENTRY void GOMP_parallel_loop_runtime_start(Code code, void *data, unsigned threads, long from, long to, long step) {
  ENTER(GOMP_parallel_loop_runtime_start, code, data, threads, from, to, step);
  begin_apart(new Region(code, data, threads, PLACE, loop(from, to, step)), own_GOMP_parallel_loop_runtime_start,
              threads, from, to, step);
}

ENTRY void GOMP_parallel_end() {
  ENTER(GOMP_parallel_end);
  Here &own = here();
  // Deleted at the end of this function, after the runtime's call: until then other threads still use the team.
  std::unique_ptr<Region> region(static_cast<Region *>(own.region));
  if (region) end_part(own, region->team, true);
  own_GOMP_parallel_end();
}
