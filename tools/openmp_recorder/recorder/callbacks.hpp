// What a runtime calls: LLVM's by the tools interface, gcc's by the functions that stand before its own (`gomp/`).
#pragma once
#include <omp-tools.h>

#include <cstdint>

#include "thread_log.hpp"

// All of these run on the thread that they concern, between two instructions of the program, and may allocate and write
// files. They never call the runtime, and are not for handlers of signals.
void on_thread_begin(ompt_thread_t, ompt_data_t *);
void on_parallel_begin(ompt_data_t *encountering, const ompt_frame_t *, ompt_data_t *region, unsigned, int,
                       const void *code);
void on_parallel_end(ompt_data_t *, ompt_data_t *, int, const void *);
void on_implicit_task(ompt_scope_endpoint_t endpoint, ompt_data_t *region, ompt_data_t *, unsigned threads, unsigned,
                      int flags);
void on_work(ompt_work_t kind, ompt_scope_endpoint_t endpoint, ompt_data_t *, ompt_data_t *task, uint64_t turns,
             const void *code);
void on_dispatch(ompt_data_t *, ompt_data_t *, ompt_dispatch_t kind, ompt_data_t instance);
// Before the task can begin: the callback writes its number into `task`, which another thread may read as soon as the
// runtime has the task.
void on_create(ompt_data_t *encountering, const ompt_frame_t *, ompt_data_t *task, int flags, int, const void *code);
void on_create_by_path(ompt_data_t *encountering, const ompt_frame_t *, ompt_data_t *task, int flags, int,
                       const void *code);
void on_dependences(ompt_data_t *task, const ompt_dependence_t *items, int count);
void on_schedule(ompt_data_t *prior, ompt_task_status_t status, ompt_data_t *next);
void on_sync(ompt_sync_region_t kind, ompt_scope_endpoint_t endpoint, ompt_data_t *, ompt_data_t *task,
             const void *code);
void on_sync_wait(ompt_sync_region_t kind, ompt_scope_endpoint_t endpoint, ompt_data_t *, ompt_data_t *task,
                  const void *code);
void on_cancel(ompt_data_t *task, int flags, const void *code);
void on_lock_asked(ompt_mutex_t kind, unsigned, unsigned, ompt_wait_id_t name, const void *code);
void on_lock_got(ompt_mutex_t kind, ompt_wait_id_t name, const void *);
void on_lock_left(ompt_mutex_t kind, ompt_wait_id_t name, const void *);
// Before a lock is let go, and after that: others may wait for it until then.
Release release_begins();
void on_release(ompt_mutex_t kind, ompt_wait_id_t name, const Release &when);

// As OpenMP 5.2 has them, and LLVM 16: the header of 14 has fewer.
constexpr int dispatched_section = 2, dispatched_chunk = 3;
struct DispatchedChunk {
  uint64_t start, turns;
};

// Beside the flags of a creation: no task follows that belongs to the wait.
constexpr int waits_alone = 0x00800000;

// Only while one thread runs: its two tasks are shared.
void make_a_record();  // and nothing else
bool records_asked();  // by the environment
