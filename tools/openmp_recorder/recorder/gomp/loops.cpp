// Loops and sections, whose chunks a thread gets one by one. Of a static loop whose chunks gcc's code finds by itself
// nothing is called.
#include "callbacks.hpp"
#include "here.hpp"
#include "own.hpp"
#include "turns.hpp"
#include "waits.hpp"

namespace {
using Unsigned = unsigned long long;

// All of this file runs on the thread that gets the chunk, and changes nothing but that thread's `Here`.
void tell_chunk(ompt_dispatch_t kind, uint64_t turns) {
  // The callback reads it at once and keeps no pointer.
  DispatchedChunk chunk{0, turns};
  ompt_data_t instance;
  instance.ptr = &chunk;
  on_dispatch(nullptr, nullptr, kind, instance);
}

// After the runtime's call, which may wait for the next chunk: the chunk begins when it returns.
bool got_chunk(bool is_there, uint64_t turns) {
  if (is_there && turns) tell_chunk(static_cast<ompt_dispatch_t>(dispatched_chunk), turns);
  if (!is_there) end_divided();
  return is_there;
}

// The loop's bounds may be those of its chunk.
bool got(bool is_there, const long *from, const long *to) {
  return got_chunk(is_there, from ? turns_between(*from, *to, here().step) : 0);
}
bool got(bool is_there, const Unsigned *from, const Unsigned *to) {
  auto step = here().step;
  return got_chunk(is_there, from ? turns_between(step > 0, *from, *to, static_cast<Unsigned>(step)) : 0);
}

// Before the runtime's call, which hands out the first chunk: `got` needs the step.
void begin_loop(long from, long to, long step, const void *place) {
  here().step = step;
  begin_divided(ompt_work_loop, turns_between(from, to, step), place);
}
void begin_loop(bool is_up, Unsigned from, Unsigned to, Unsigned step, const void *place) {
  here().step = static_cast<int64_t>(step);
  begin_divided(ompt_work_loop, turns_between(is_up, from, to, step), place);
}

// Of loops within each other that `ordered` names the outermost is divided.
template <class Turn>
void begin_crossed(unsigned counts, const Turn *turns, const void *place) {
  here().step = 1;
  here().counts = counts;
  begin_divided(ompt_work_loop, static_cast<uint64_t>(turns[0]), place);
}

unsigned got_section(unsigned number) {
  if (number) tell_chunk(static_cast<ompt_dispatch_t>(dispatched_section), 1);
  else end_divided();
  return number;
}
}  // namespace

// A thread is in one such construct at most, and its record must come before those of its chunks.
void begin_divided(ompt_work_t what, uint64_t turns, const void *place) {
  Here &own = here();
  end_divided();
  own.in_divided = true;
  own.divided = what;
  on_work(what, ompt_scope_begin, nullptr, own.task, turns, place);
}

// Before the thread waits at the construct's barrier. A second call does nothing.
void end_divided() {
  Here &own = here();
  if (!own.in_divided) return;
  own.in_divided = false;
  on_work(own.divided, ompt_scope_end, nullptr, own.task, 0, nullptr);
}

// Of an unsigned loop the runtime is told first whether it goes up.
#define TAKES_long
#define GIVES_long
#define TAKES_Unsigned bool is_up,
#define GIVES_Unsigned is_up,

// Each entry begins the loop before the runtime's call, and after it reports the chunk, or the end where there is none.
#define START(name, Turn)                                                                           \
  ENTRY bool name(TAKES_##Turn Turn from, Turn to, Turn step, Turn chunk, Turn *first, Turn *end) { \
    ENTER(name, GIVES_##Turn from, to, step, chunk, first, end);                                    \
    begin_loop(GIVES_##Turn from, to, step, PLACE);                                                 \
    return got(own_##name(GIVES_##Turn from, to, step, chunk, first, end), first, end);             \
  }
// The schedule and the size of its chunks are those of OMP_SCHEDULE.
#define START_BY_SETTING(name, Turn)                                                    \
  ENTRY bool name(TAKES_##Turn Turn from, Turn to, Turn step, Turn *first, Turn *end) { \
    ENTER(name, GIVES_##Turn from, to, step, first, end);                               \
    begin_loop(GIVES_##Turn from, to, step, PLACE);                                     \
    return got(own_##name(GIVES_##Turn from, to, step, first, end), first, end);        \
  }
#define NEXT(name, Turn)                            \
  ENTRY bool name(Turn *first, Turn *end) {         \
    ENTER(name, first, end);                        \
    return got(own_##name(first, end), first, end); \
  }
#define LOOP(start, schedule)                                                       \
  start(GOMP_loop_##schedule##_start, long) NEXT(GOMP_loop_##schedule##_next, long) \
      start(GOMP_loop_ull_##schedule##_start, Unsigned) NEXT(GOMP_loop_ull_##schedule##_next, Unsigned)
LOOP(START, static)
LOOP(START, dynamic)
LOOP(START, guided)
LOOP(START, nonmonotonic_dynamic)
LOOP(START, nonmonotonic_guided)
LOOP(START, ordered_static)
LOOP(START, ordered_dynamic)
LOOP(START, ordered_guided)
LOOP(START_BY_SETTING, runtime)
LOOP(START_BY_SETTING, nonmonotonic_runtime)
LOOP(START_BY_SETTING, maybe_nonmonotonic_runtime)
LOOP(START_BY_SETTING, ordered_runtime)

// With reductions for tasks or with memory of the construct's own. A loop without `first` finds its chunks by itself.
#define START_WITH_MORE(name, Turn)                                                                                   \
  ENTRY bool name(TAKES_##Turn Turn from, Turn to, Turn step, long schedule, Turn chunk, Turn *first, Turn *end,      \
                  uintptr_t *reductions, void **memory) {                                                             \
    ENTER(name, GIVES_##Turn from, to, step, schedule, chunk, first, end, reductions, memory);                        \
    if (reductions) begin_group(PLACE);                                                                               \
    if (first) begin_loop(GIVES_##Turn from, to, step, PLACE);                                                        \
    return got(own_##name(GIVES_##Turn from, to, step, schedule, chunk, first, end, reductions, memory), first, end); \
  }
START_WITH_MORE(GOMP_loop_start, long)
START_WITH_MORE(GOMP_loop_ordered_start, long)
START_WITH_MORE(GOMP_loop_ull_start, Unsigned)
START_WITH_MORE(GOMP_loop_ull_ordered_start, Unsigned)

#define START_CROSSED(name, Turn)                                                     \
  ENTRY bool name(unsigned counts, Turn *turns, Turn chunk, Turn *first, Turn *end) { \
    ENTER(name, counts, turns, chunk, first, end);                                    \
    begin_crossed(counts, turns, PLACE);                                              \
    return got(own_##name(counts, turns, chunk, first, end), first, end);             \
  }
#define START_CROSSED_BY_SETTING(name, Turn)                              \
  ENTRY bool name(unsigned counts, Turn *turns, Turn *first, Turn *end) { \
    ENTER(name, counts, turns, first, end);                               \
    begin_crossed(counts, turns, PLACE);                                  \
    return got(own_##name(counts, turns, first, end), first, end);        \
  }
#define START_CROSSED_WITH_MORE(name, Turn)                                                             \
  ENTRY bool name(unsigned counts, Turn *turns, long schedule, Turn chunk, Turn *first, Turn *end,      \
                  uintptr_t *reductions, void **memory) {                                               \
    ENTER(name, counts, turns, schedule, chunk, first, end, reductions, memory);                        \
    if (reductions) begin_group(PLACE);                                                                 \
    if (first) begin_crossed(counts, turns, PLACE);                                                     \
    return got(own_##name(counts, turns, schedule, chunk, first, end, reductions, memory), first, end); \
  }
#define CROSSED(kind, Turn)                                            \
  START_CROSSED(GOMP_##kind##_doacross_static_start, Turn)             \
  START_CROSSED(GOMP_##kind##_doacross_dynamic_start, Turn)            \
  START_CROSSED(GOMP_##kind##_doacross_guided_start, Turn)             \
  START_CROSSED_BY_SETTING(GOMP_##kind##_doacross_runtime_start, Turn) \
  START_CROSSED_WITH_MORE(GOMP_##kind##_doacross_start, Turn)
CROSSED(loop, long)
CROSSED(loop_ull, Unsigned)

#define END(name)     \
  ENTRY void name() { \
    ENTER(name);      \
    end_divided();    \
    own_##name();     \
  }
END(GOMP_loop_end_nowait)
END(GOMP_sections_end_nowait)

ENTRY unsigned GOMP_sections_start(unsigned count) {
  ENTER(GOMP_sections_start, count);
  begin_divided(ompt_work_sections, count, PLACE);
  return got_section(own_GOMP_sections_start(count));
}

ENTRY unsigned GOMP_sections2_start(unsigned count, uintptr_t *reductions, void **memory) {
  ENTER(GOMP_sections2_start, count, reductions, memory);
  if (reductions) begin_group(PLACE);
  begin_divided(ompt_work_sections, count, PLACE);
  return got_section(own_GOMP_sections2_start(count, reductions, memory));
}

ENTRY unsigned GOMP_sections_next() {
  ENTER(GOMP_sections_next);
  return got_section(own_GOMP_sections_next());
}
