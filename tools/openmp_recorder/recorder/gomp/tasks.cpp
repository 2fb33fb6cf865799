#include "tasks.hpp"

#include "callbacks.hpp"
#include "items.hpp"
#include "own.hpp"
#include "waits.hpp"

namespace {
// OMP_CANCELLATION cannot change during a run, so the runtime is asked once.
bool is_cancellation_on() {
  static const bool is_on = reinterpret_cast<int (*)()>(own_function("omp_get_cancellation"))();
  return is_on;
}

// On the thread that runs the task; where it is undeferred and has items, its wait for them ends here.
void tell_start(Here &own, Head &head) {
  if (head.waits) tell_waited_for();
  if (head.is_told_at_start) tell_creation(own.task, nullptr, &head.task, head.flags, 0, head.place);
  on_schedule(own.task, ompt_task_switch, &head.task);
}

// The runtime calls it on the creating thread, before `GOMP_task` returns.
void copy(void *to, void *from) { static_cast<const Given *>(from)->copy_to(to); }

// The program's arguments: handed on as they are but for the function, its data, their copier, size and alignment.
struct Asked {
  Code code;
  void *data;
  Copier copier;
  long bytes, alignment;
  bool is_deferred;
  unsigned flags;
  void **depend;
  int priority;
  void *event;
};

template <class Own>
void call(Own own, const Asked &of, Code code, void *data, Copier copier, long bytes, long alignment) {
  own(code, data, copier, bytes, alignment, of.is_deferred, of.flags, of.depend, of.priority, of.event);
}

template <class Own>
void make_task(Own own_task, const Asked &of, const void *place) {
  Here &own = here();
  // The runtime discards the task, so nothing is recorded and the program's own arguments go on.
  if (is_cancelled(cancelled_group)) return call(own_task, of, of.code, of.data, of.copier, of.bytes, of.alignment);
  bool is_undeferred = !of.is_deferred || own.is_final || !own.in_team, is_detached = of.flags & task_is_detached;
  Given given{{}, of.copier, of.data, of.bytes};
  Head &head = given.head;
  head.code = of.code;
  head.place = place_of(of.code, place);
  head.start = start_of_data(of.alignment);
  head.flags = ompt_task_explicit | (is_undeferred ? ompt_task_undeferred : 0);
  head.words_written = is_detached && of.data;
  head.is_final = own.is_final || of.flags & task_is_final;
  head.is_detached = is_detached;
  head.may_be_cancelled = !of.copier;
  // From here on `given` must not change: the call copies it, and may already run it.
  tell_task(own, head, of.flags & task_depends ? of.depend : nullptr);
  call(own_task, of, run_task, &given, copy, head.start + of.bytes, aligned(of.alignment));
}

void no_code(void *) {}
}  // namespace

// The task is recorded as made, with its items, before the runtime knows of it: afterwards it may have ended.
void tell_task(Here &own, Head &head, void **depend) {
  bool is_undeferred = head.flags & ompt_task_undeferred;
  if (depend && is_undeferred) {  // it is waited for, by whatever code the thread runs then
    tell_wait_for(depend, 0, head.place);
    head.waits = head.is_told_at_start = true;
    return;
  }
  tell_creation(own.task, nullptr, &head.task, head.flags, depend ? 1 : 0, head.place);
  if (!depend) return;
  std::vector<ompt_dependence_t> items = items_of(depend);
  on_dependences(&head.task, items.data(), static_cast<int>(items.size()));
}

bool is_cancelled(Cancelled what) {
  static const auto point = reinterpret_cast<bool (*)(int)>(own_function("GOMP_cancellation_point"));
  return __builtin_expect(is_cancellation_on(), false) && point(what);
}

// Tasks nest on a thread's stack: each restores the task before it, also where its code ran others in between.
void run_task(void *of) {
  Head &head = *static_cast<Head *>(of);
  Here &own = here(true);
  if (head.may_be_cancelled && is_cancelled(cancelled_group))
    return on_schedule(&head.task, ompt_task_cancel, own.task);
  // What the runtime wrote into the head is meant for the beginning of the program's data.
  if (head.words_written) std::memcpy(head.data(), head.written, head.words_written * sizeof head.written[0]);
  ompt_data_t *before = own.task;
  bool was_final = own.is_final;
  tell_start(own, head);
  own.task = &head.task;
  own.is_final = head.is_final;
  head.code(head.data());
  own.task = before;
  own.is_final = was_final;
  // Before the runtime learns that the task has ended: it then releases tasks that wait for it, on other threads too.
  on_schedule(&head.task, head.is_detached ? ompt_task_detach : ompt_task_complete, before);
}

ENTRY void GOMP_task(Code code, void *data, Copier copier, long bytes, long alignment, bool is_deferred, unsigned flags,
                     void **depend, int priority, void *event) {
  ENTER(GOMP_task, code, data, copier, bytes, alignment, is_deferred, flags, depend, priority, event);
  make_task(own_GOMP_task, {code, data, copier, bytes, alignment, is_deferred, flags, depend, priority, event}, PLACE);
}

void make_empty_task(void **depend, const void *place) {
  OWN(GOMP_task);
  make_task(own_GOMP_task, {no_code, nullptr, nullptr, 0, 1, true, task_depends, depend, 0, nullptr}, place);
}

// Of gcc 13 and later.
ENTRY void GOMP_taskwait_depend_nowait(void **depend) {
  PASS_ON(GOMP_taskwait_depend_nowait, depend);
  make_empty_task(depend, PLACE);
}
