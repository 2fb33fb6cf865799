// Waits for tasks, groups, barriers, and what is cancelled.
#include "callbacks.hpp"
#include "here.hpp"
#include "items.hpp"
#include "own.hpp"
#include "waits.hpp"

// The beginning of a wait is recorded before the runtime's call, and its end after it. In between the thread may run
// tasks: `run_task` puts `Here::task` back, so both records name the same task.
void begin_group(const void *place) {
  on_sync(ompt_sync_region_taskgroup, ompt_scope_begin, nullptr, here().task, place);
}

// It allocates, so it comes before the runtime's call. `none` lies on this stack: the callbacks keep no pointer to it.
void tell_wait_for(void **depend, int flags, const void *place) {
  std::vector<ompt_dependence_t> items = items_of(depend);
  ompt_data_t none = {0};
  flags |= ompt_task_explicit | ompt_task_taskwait | ompt_task_undeferred;
  on_create(here().task, nullptr, &none, flags, 0, place);
  on_dependences(&none, items.data(), static_cast<int>(items.size()));
}

void tell_waited_for() {
  ompt_data_t none = {0};
  on_schedule(&none, ompt_taskwait_complete, nullptr);
}

void wait_for(void **depend, const void *place) {
  static const auto own = reinterpret_cast<void (*)(void **)>(own_function("GOMP_taskwait_depend"));
  tell_wait_for(depend, waits_alone, place);
  own(depend);
  tell_waited_for();
}

// All threads of the team must come here, as at any barrier, or the program hangs.
void wait_for_all(const void *place) {
  static const auto own_barrier = reinterpret_cast<void (*)()>(own_function("GOMP_barrier"));
  Barrier barrier(ompt_sync_region_barrier_implicit_workshare, place);
  own_barrier();
}

namespace {
// Four records around the runtime's call, as LLVM's runtime makes them: the wait ends before its group does. The last
// two are made by a destructor, so that no way out of an entry skips them: the group would stay open.
class GroupEnd {
 public:
  explicit GroupEnd(const void *of) : place(of) { tell(ompt_scope_begin); }
  ~GroupEnd() {
    tell(ompt_scope_end);
    on_sync(ompt_sync_region_taskgroup, ompt_scope_end, nullptr, here().task, place);
  }

 private:
  const void *place;
  void tell(ompt_scope_endpoint_t endpoint) const {
    on_sync_wait(ompt_sync_region_taskgroup, endpoint, nullptr, here().task, place);
  }
};

// As gcc's code numbers them; the program must get the runtime's own answer, since it decides whether to leave.
enum { loop_or_sections = 2 | 4, region = 1, group = 8 };

int flags_of(int which, bool is_asked) {
  constexpr int activated = 0x10, detected = 0x20;
  int what = which & region ? ompt_cancel_parallel : which & group ? ompt_cancel_taskgroup : ompt_cancel_loop;
  return what | (is_asked ? activated : detected);
}

bool tell_cancelled(bool is_cancelled, int which, bool is_asked, const void *place) {
  if (is_cancelled) on_cancel(here().task, flags_of(which, is_asked), place);
  return is_cancelled;
}
}  // namespace

ENTRY void GOMP_taskwait() {
  ENTER(GOMP_taskwait);
  Here &own = here();
  on_sync(ompt_sync_region_taskwait, ompt_scope_begin, nullptr, own.task, PLACE);
  own_GOMP_taskwait();
  on_sync(ompt_sync_region_taskwait, ompt_scope_end, nullptr, own.task, PLACE);
}

ENTRY void GOMP_taskwait_depend(void **depend) {
  PASS_ON(GOMP_taskwait_depend, depend);
  wait_for(depend, PLACE);
}

ENTRY void GOMP_taskgroup_start() {
  ENTER(GOMP_taskgroup_start);
  begin_group(PLACE);
  own_GOMP_taskgroup_start();
}

ENTRY void GOMP_taskgroup_end() {
  ENTER(GOMP_taskgroup_end);
  GroupEnd end(PLACE);
  own_GOMP_taskgroup_end();
}

// Where there is no team the runtime makes one of this thread for good, and defers tasks from then on.
ENTRY void GOMP_taskgroup_reduction_register(uintptr_t *reductions) {
  ENTER(GOMP_taskgroup_reduction_register, reductions);
  here().in_team = true;
  own_GOMP_taskgroup_reduction_register(reductions);
}

// The construct ends before its barrier, and the barrier once the runtime's call has returned, whether it was cancelled
// or not: the answer is the runtime's.
#define BARRIER(answer, name, kind) \
  ENTRY answer name() {             \
    ENTER(name);                    \
    end_divided();                  \
    Barrier barrier(kind, PLACE);   \
    return own_##name();            \
  }
BARRIER(void, GOMP_barrier, ompt_sync_region_barrier_explicit)
BARRIER(bool, GOMP_barrier_cancel, ompt_sync_region_barrier_explicit)
BARRIER(void, GOMP_loop_end, ompt_sync_region_barrier_implicit_workshare)
BARRIER(bool, GOMP_loop_end_cancel, ompt_sync_region_barrier_implicit_workshare)
BARRIER(void, GOMP_sections_end, ompt_sync_region_barrier_implicit_workshare)
BARRIER(bool, GOMP_sections_end_cancel, ompt_sync_region_barrier_implicit_workshare)

// The group of a construct with reductions for tasks ends, and then the construct, with a barrier.
ENTRY void GOMP_workshare_task_reduction_unregister(bool is_cancelled) {
  ENTER(GOMP_workshare_task_reduction_unregister, is_cancelled);
  {
    GroupEnd end(PLACE);
    own_GOMP_workshare_task_reduction_unregister(true);
  }
  if (!is_cancelled) wait_for_all(PLACE);
}

ENTRY void GOMP_scope_start(uintptr_t *reductions) {
  ENTER(GOMP_scope_start, reductions);
  begin_group(PLACE);
  own_GOMP_scope_start(reductions);
}

ENTRY bool GOMP_cancel(int which, bool is_asked) {
  ENTER(GOMP_cancel, which, is_asked);
  return tell_cancelled(own_GOMP_cancel(which, is_asked), which, is_asked, PLACE);
}

ENTRY bool GOMP_cancellation_point(int which) {
  ENTER(GOMP_cancellation_point, which);
  return tell_cancelled(own_GOMP_cancellation_point(which), which, false, PLACE);
}
