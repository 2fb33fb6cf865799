// What the thread waits for, as it is told.
#pragma once
#include <omp-tools.h>

#include "callbacks.hpp"
#include "here.hpp"

void begin_group(const void *place);
// For what tasks made before do with these items; with `waits_alone` no task of the construct follows.
// Before and after the runtime's wait, in pairs on one thread.
void tell_wait_for(void **depend, int flags, const void *place);
void tell_waited_for();
void wait_for(void **depend, const void *place);  // and tell it
void begin_divided(ompt_work_t what, uint64_t turns, const void *place);  // a loop or sections
void end_divided();  // if the thread is in any
void wait_for_all(const void *place);  // at a barrier of a construct

// While it stands the thread is at a barrier.
// The destructor records the end, so that an entry can return the runtime's answer.
class Barrier {
 public:
  Barrier(ompt_sync_region_t of, const void *at) : kind(of), place(at) { tell(ompt_scope_begin); }
  ~Barrier() { tell(ompt_scope_end); }
  Barrier(const Barrier &) = delete;

 private:
  ompt_sync_region_t kind;
  const void *place;
  void tell(ompt_scope_endpoint_t endpoint) const { on_sync(kind, endpoint, nullptr, here().task, place); }
};
