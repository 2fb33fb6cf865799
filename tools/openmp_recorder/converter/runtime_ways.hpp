// How LLVM's runtime tells constructs.
#pragma once
#include <omp-tools.h>

#include <cstdint>

#include "record_kind.hpp"

// Whether a wait for dependences and an undeferred task belong to one construct: gcc's code makes both by one call, and
// in clang's the task's call follows the wait's at once. After a `taskwait` a call that allocates the task is between.
inline bool of_one_construct(const void *wait, const void *task) {
  constexpr uintptr_t most_bytes_between = 40;
  return reinterpret_cast<uintptr_t>(task) - reinterpret_cast<uintptr_t>(wait) <= most_bytes_between;
}

inline bool ends_a_task(uint32_t status) {
  return status == ompt_task_complete || status == ompt_task_cancel || status == ompt_task_detach;
}

// Whether the task that is told of is what the thread runs then.
inline bool says_what_runs(RecordKind kind, uint32_t detail) {
  switch (kind) {
    case RecordKind::Schedule:
      return detail != ompt_task_early_fulfill && detail != ompt_task_late_fulfill && detail != ompt_taskwait_complete;
    case RecordKind::ParallelBegin:
    case RecordKind::LoopBegin:
    case RecordKind::LoopEnd:
    case RecordKind::Create:
    case RecordKind::SyncBegin:
    case RecordKind::SyncEnd:
    case RecordKind::WaitBegin:
    case RecordKind::WaitEnd:
    case RecordKind::Cancel: return true;
    default: return false;
  }
}

// Whether what is told in the code of a chunk of a loop makes a task, or waits.
inline bool is_construct(RecordKind kind, uint32_t detail) {
  switch (kind) {
    case RecordKind::Create:
    case RecordKind::LoopBegin:
    case RecordKind::WaitBegin:
    case RecordKind::Schedule: return true;
    case RecordKind::SyncBegin: return detail == ompt_sync_region_taskwait || detail == ompt_sync_region_taskgroup;
    default: return false;
  }
}

inline bool waits_for_turns(uint32_t type) {
  return type == ompt_dependence_type_source || type == ompt_dependence_type_sink;
}
