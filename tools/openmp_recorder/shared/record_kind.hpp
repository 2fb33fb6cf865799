// The kinds of records in a log: what the runtime reports, and what the recorder adds.
#pragma once
#include <cstdint>

enum class RecordKind : uint8_t {
  Nothing,  // there is no record
  ParallelBegin,
  ParallelEnd,
  ImplicitBegin,
  ImplicitEnd,
  LoopBegin,
  LoopEnd,
  Create,
  Dependences,  // their items follow
  Schedule,
  SyncBegin,
  SyncEnd,
  WaitBegin,
  WaitEnd,
  Cancel,
  Divided,  // code that is divided among a region's threads, each of which meets it
  LockGot,
  LockLeft,
  Items,  // one or two of the dependences before
  Passed,  // how far both clocks went until then, since the thread read both before
  StoodStill,  // how long the recorder took, apart from what a record takes
  Chunk,  // a thread begins with turns of such code, or with a section
  DividedEnd,  // and is done with it
  Sample  // of a thread's calls, between its records
};

// Whether its task is the one that the thread is in; whether short records that follow may be like such a one.
constexpr bool names_task(RecordKind kind) {
  return kind == RecordKind::Create || kind == RecordKind::SyncBegin || kind == RecordKind::SyncEnd;
}
constexpr bool has_slot(RecordKind kind) { return names_task(kind) || kind == RecordKind::LockGot; }

// Details of a record: of Create what is set of the first five, of ImplicitBegin and ParallelBegin the last two; of
// Schedule the status, of the others the kind, as OMPT has them.
enum Detail : uint8_t {
  is_undeferred = 1,
  is_taskwait = 2,
  is_target = 4,
  is_untied = 8,
  is_alone = 16,  // a wait for dependences, to which no task belongs that follows
  is_initial = 1,
  is_runtimes = 1  // a region of threads that the runtime keeps for itself, as LLVM's hidden helpers
};

// Above the bit of a region, how many threads its program asked for, or so many or more; 0 where that is not reported.
constexpr unsigned asked_shift = 1, most_asked = 127;

// Among the kinds of locks, as OMPT has them: `ordered`; and behind these the system's.
constexpr unsigned order_of_turns = 7, system_mutex = 64, system_rwlock = 65;

enum class Divided : uint8_t { Loops, Sections };
