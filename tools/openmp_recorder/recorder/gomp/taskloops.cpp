// Taskloops: the runtime makes their tasks by itself, and waits for them in a group of its own.
#include <alloca.h>

#include <algorithm>

#include "callbacks.hpp"
#include "own.hpp"
#include "tasks.hpp"
#include "turns.hpp"

extern "C" {
void GOMP_taskgroup_start();
void GOMP_taskgroup_end();
void GOMP_taskgroup_reduction_register(uintptr_t *);
}

namespace {
constexpr uint64_t deferred_for_thread = 64;  // tasks: where there are more the runtime runs them at once
constexpr uint64_t most_bytes = 512 << 10;  // on the stack
constexpr uint64_t bytes_of_task = 512;  // of the runtime's, at the most

// In words: two bounds, and then where the reductions are.
struct Bounds {
  uint64_t first, second;
  uintptr_t *reductions;
};

template <class Turn>
struct Loop {
  Code code;
  void *data;
  Copier copier;
  long bytes, alignment;
  unsigned flags;
  unsigned long tasks;
  int priority;
  Turn from, to, step;
};

uint64_t turns_of(const Loop<long> &of) { return turns_between(of.from, of.to, of.step); }

uint64_t turns_of(const Loop<unsigned long long> &of) {
  return turns_between((of.flags & loop_is_up) != 0, of.from, of.to, of.step);
}

// How many tasks it becomes, or one less.
// The runtime decides how many it makes; this must never be more than one too few, since the room on the stack for
// copies goes by it.
template <class Turn>
uint64_t least_tasks(const Loop<Turn> &of, uint64_t threads) {
  uint64_t turns = turns_of(of);
  if (of.flags & loop_has_grainsize) return turns / of.tasks;
  return std::min<uint64_t>(of.tasks ? of.tasks : threads, turns);
}

// Where tasks are deferred each is told when its data are copied.
// In the runtime's call, on the thread that makes the tasks, one after the other: so one `Given` serves all.
void copy_deferred(void *to, void *from) {
  auto *given = static_cast<Given *>(from);
  tell_creation(here().task, nullptr, &given->head.task, given->head.flags, 0, given->head.place);
  given->copy_to(to);
}

// Of undeferred ones each is told when it starts, so the copy alone is due here.
void copy_undeferred(void *to, void *from) { static_cast<const Given *>(from)->copy_to(to); }

enum class Way {
  Copied,  // each by a copier, which tells it where it is deferred
  InPlace,  // one after the other with the same data
  Untold  // too large to be copied on the stack
};

template <class Turn>
Way way_of(const Loop<Turn> &of, bool is_undeferred) {
  if (of.copier) return Way::Copied;
  uint64_t threads = threads_here(), least = least_tasks(of, threads);
  uint64_t bytes = start_of_data(of.alignment) + static_cast<uint64_t>(of.bytes) + bytes_of_task;
  if (is_undeferred || least > deferred_for_thread * threads) return bytes < most_bytes ? Way::InPlace : Way::Untold;
  return (least + 1) * bytes < most_bytes ? Way::Copied : Way::Untold;
}

template <class Turn>
Head head_of(const Loop<Turn> &of, const Here &own, bool is_undeferred, const void *place) {
  Head head{};
  head.code = of.code;
  head.place = place;
  head.start = start_of_data(of.alignment);
  head.flags = ompt_task_explicit | (is_undeferred ? ompt_task_undeferred : 0);
  head.words_written = 2;
  head.is_final = own.is_final || of.flags & task_is_final;
  return head;
}

template <class Own, class Turn>
void call(Own own, const Loop<Turn> &of, Code code, void *data, Copier copier, long bytes) {
  own(code, data, copier, bytes, aligned(of.alignment), of.flags, of.tasks, of.priority, of.from, of.to, of.step);
}

// `given` and the room of `alloca` must live until the runtime's call returns, so that call is made here and in no
// helper that returns before. Between the two `on_work` the converter takes all creations for those of the loop.
template <class Own, class Turn>
void make_tasks(Own own_loop, const Loop<Turn> &of, const void *place) {
  Here &own = here();
  bool is_undeferred = !(of.flags & loop_is_deferred) || own.is_final || !own.in_team;
  Way way = way_of(of, is_undeferred);
  if (way == Way::Untold) return call(own_loop, of, of.code, of.data, of.copier, of.bytes);
  Given given{head_of(of, own, is_undeferred, place), of.copier, of.data, of.bytes};
  long bytes = given.head.start + of.bytes;
  given.head.is_told_at_start = is_undeferred || way == Way::InPlace;
  given.head.may_be_cancelled = way == Way::Copied && !of.copier;
  on_work(ompt_work_taskloop, ompt_scope_begin, nullptr, own.task, turns_of(of), place);
  if (way == Way::Copied) {
    call(own_loop, of, run_task, &given, is_undeferred ? copy_undeferred : copy_deferred, bytes);
  } else {
    long to = aligned(of.alignment);
    // The runtime uses these data in place and is done with them when its call returns, so the stack is enough.
    auto room = reinterpret_cast<uintptr_t>(alloca(static_cast<size_t>(bytes + to)));
    void *data = reinterpret_cast<void *>((room + static_cast<uintptr_t>(to) - 1) & -static_cast<uintptr_t>(to));
    given.copy_to(data);
    call(own_loop, of, run_task, data, nullptr, bytes);
  }
  on_work(ompt_work_taskloop, ompt_scope_end, nullptr, own.task, 0, place);
}

// Where a group is cancelled, or the loop has no turns, the runtime begins none.
template <class Own, class Turn>
void make_group(Own own_loop, Loop<Turn> of, const void *place) {
  OWN(GOMP_taskgroup_start);
  OWN(GOMP_taskgroup_end);
  OWN(GOMP_taskgroup_reduction_register);
  Here &own = here();
  on_sync(ompt_sync_region_taskgroup, ompt_scope_begin, nullptr, own.task, place);
  bool is_empty = !turns_of(of) || is_cancelled(cancelled_region);
  if (is_empty) {
    own_loop(of.code, of.data, of.copier, of.bytes, of.alignment, of.flags, of.tasks, of.priority, of.from, of.to,
             of.step);
  } else {
    own_GOMP_taskgroup_start();
    if (of.flags & loop_reduces) own_GOMP_taskgroup_reduction_register(static_cast<Bounds *>(of.data)->reductions);
    // The group is asked for here, so the runtime must not open a second one.
    of.flags |= loop_without_group;
    make_tasks(own_loop, of, place);
  }
  on_sync_wait(ompt_sync_region_taskgroup, ompt_scope_begin, nullptr, own.task, place);
  if (!is_empty) own_GOMP_taskgroup_end();
  on_sync_wait(ompt_sync_region_taskgroup, ompt_scope_end, nullptr, own.task, place);
  on_sync(ompt_sync_region_taskgroup, ompt_scope_end, nullptr, own.task, place);
}

// There must be one group, as without the recorder: where the runtime would open it, it is asked for here.
template <class Own, class Turn>
void loop(Own own_loop, const Loop<Turn> &of, const void *place) {
  if (!(of.flags & loop_without_group)) return make_group(own_loop, of, place);
  if (turns_of(of) && !is_cancelled(cancelled_group)) make_tasks(own_loop, of, place);
}
}  // namespace

ENTRY void GOMP_taskloop(Code code, void *data, Copier copier, long bytes, long alignment, unsigned flags,
                         unsigned long tasks, int priority, long from, long to, long step) {
  ENTER(GOMP_taskloop, code, data, copier, bytes, alignment, flags, tasks, priority, from, to, step);
  Loop<long> of{code, data, copier, bytes, alignment, flags, tasks, priority, from, to, step};
  loop(own_GOMP_taskloop, of, place_of(code, PLACE));
}

ENTRY void GOMP_taskloop_ull(Code code, void *data, Copier copier, long bytes, long alignment, unsigned flags,
                             unsigned long tasks, int priority, unsigned long long from, unsigned long long to,
                             unsigned long long step) {
  ENTER(GOMP_taskloop_ull, code, data, copier, bytes, alignment, flags, tasks, priority, from, to, step);
  Loop<unsigned long long> of{code, data, copier, bytes, alignment, flags, tasks, priority, from, to, step};
  loop(own_GOMP_taskloop_ull, of, place_of(code, PLACE));
}
