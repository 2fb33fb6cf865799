// What one thread appends to: a block that is mapped from a file, so what was recorded is there however the program
// ends. A full block goes to the end of another file.
#pragma once
#include <array>
#include <cstdint>
#include <utility>
#include <vector>

#include "clocks.hpp"
#include "log_form.hpp"
#include "switches.hpp"
#include "ticks.hpp"
#include "record_kind.hpp"

struct Implicit {
  uint64_t task, region;  // numbers
};

// When the runtime called: by the counter, and by the processor's clock where costs are read on it.
struct Moment {
  uint64_t at = 0;
  int64_t processor = 0;
};

// A lock that a thread waits for, or holds while no record tells it yet.
struct OwnLock {
  const void *place = nullptr;  // where it is asked for
  uint32_t name = 0;
  unsigned kind = 0;
  Moment asked{}, got{};  // 0 while it waits
  uint64_t key() const { return uint64_t{name} << 8 | kind; }
};

// A lock is about to be let go: when, and whether the thread has kept its processor so far.
struct Release {
  Moment now;
  bool has_stood;
};

struct Open {
  uint64_t region;
  const void *place;
  bool is_outermost;  // and of the program: LLVM's hidden helpers have a region of their own
};

// Numbers for the tasks that a thread makes, from 1 on: it takes many at once.
struct OwnNumbers {
  uint32_t last = 0, end = 0;  // the last of them
  bool are_left() const { return last != end; }
};
// Any thread may call it. Where all numbers are used up it stops the log, and `of` stays empty.
void take_numbers(OwnNumbers &of);  // where none are left; there may be no more

// Long records that short ones may be like, as the runtime told them. Their places are known to be the program's, as
// long as no region begins or ends, and need not be looked for on the stack.
class LikeRecords {
 public:
  LikeRecords() { forget(); }
  bool has(RecordKind kind, const void *code, uint64_t detail) const {
    const One &one = all[slot(kind, code)];
    return one.code == code && one.detail == detail;
  }
  // The converter expands a short record by the last long one of its slot. So each long record of a kind with slots
  // must be followed by `remove`, and by `add` only where a short one may stand for it: `Entry::keep` does both.
  void add(RecordKind kind, const void *code, uint64_t detail) { all[slot(kind, code)] = {code, detail}; }
  void remove(RecordKind kind, const void *code) { all[slot(kind, code)] = {this, 0}; }
  // Due where a region begins or ends, since the places of open regions decide which places are the program's own.
  // A null `code` must match no entry, so an empty one holds an address at which no code can lie.
  void forget() {
    for (One &one : all) one = {this, 0};  // where no code is
  }
  static unsigned slot(RecordKind kind, const void *code) {
    return log_form::slot_of(reinterpret_cast<uint64_t>(code), static_cast<unsigned>(kind));
  }

 private:
  struct One {
    const void *code;
    uint64_t detail;
  };
  std::array<One, log_form::slots> all;
};

class KnownStacks;
class Samples;

// All members belong to one thread: no other may call them, and no handler of a signal, since nothing here is safe
// against an interruption by the thread itself. A log passes to another thread only by `leave_thread_log` and
// `make_thread_log`.
class alignas(64) ThreadLog {
 protected:
  // Both null until the first record: that one finds no room, and so `grow` maps the block.
  char *next = nullptr, *end = nullptr;

 private:
  uint64_t last = 0;  // ticks of the record before
  // 0 makes the next record a long one. It never reaches beyond the next look at both clocks.
  uint64_t left = 0;  // how many more the next one may have, where it is short
  uint32_t current = nobody;  // the task that the thread is in, as its records tell

 public:
  OwnNumbers numbers;
  uint64_t own = 0;  // the innermost of `implicit`
  Kept kept;  // its processor; up to here in one line of the cache
  LikeRecords like;

  explicit ThreadLog(unsigned of);
  const unsigned number;
  std::vector<Implicit> implicit;  // the implicit tasks that the thread is in, innermost last
  std::vector<Open> open;  // the regions that it began and that run, innermost last
  bool is_slow = false;  // more was done than to write records
  KnownStacks *stacks = nullptr;  // where call paths are asked for
  Samples *samples = nullptr;  // where there are any
  uint64_t region() const { return implicit.empty() ? 0 : implicit.back().region; }
  void begin_implicit(const Implicit &one) {
    implicit.push_back(one);
    own = one.task;
  }
  void end_implicit() {
    if (!implicit.empty()) implicit.pop_back();
    own = implicit.empty() ? 0 : implicit.back().task;
  }
  // Without a lock: a thread reserves numbers in batches, so they are unique but not in the order of time.
  uint32_t new_number() {  // 0 where there are no more
    if (!numbers.are_left()) take_numbers(numbers);
    return numbers.are_left() ? ++numbers.last : 0;
  }

  // Where there is no room it allocates, maps or writes a file, or stops the log: so only from callbacks. The
  // processor's clock goes in before `put_long` publishes the record.
  void put(const Moment &now, RecordKind kind, uint32_t task, uint32_t other, uint64_t code, unsigned detail) {
    if (!costs_by_processor) return put_by_wall(now.at, kind, task, other, code, detail);
    put_lock();
    if (!has_room() && !grow()) return;
    *reinterpret_cast<int64_t *>(next + log_form::bytes_by_wall) = now.processor;
    put_long({now.at, task, other, log_form::make_word(code, static_cast<unsigned>(kind), detail)},
             log_form::bytes_by_processor);
  }
  // Only where costs are read on the wall clock: it leaves no room for the other clock.
  void put_by_wall(uint64_t at, RecordKind kind, uint32_t task, uint32_t other, uint64_t code, unsigned detail) {
    put_lock();
    if (__builtin_expect(!has_room(), false) && !grow()) return;
    if (kind == RecordKind::Schedule && takes_short(at - last, task) && detail < log_form::lock_left)
      return go_on(at - last, detail, other);
    put_long({at, task, other, log_form::make_word(code, static_cast<unsigned>(kind), detail)},
             log_form::bytes_by_wall);
  }
  // Whether so many ticks after the record before a short one may be put, and nothing else is to be done.
  // Where the counter went back, `ticks` wraps around, is too large, and the record becomes a long one.
  bool takes_short(uint64_t ticks, uint64_t task) const { return ticks < left && has_room() && task == current; }
  uint64_t ticks_since_last(uint64_t at) const { return at - last; }
  // Only after `takes_short`. Clear what follows first, then publish all eight bytes by one store: a kill at any
  // instruction then leaves a whole record or none. No call and no branch here: most records of a run pass this way.
  void put_short(uint64_t ticks, unsigned what, uint32_t other) {
    char *place = next;
    clear(place + sizeof(log_form::ShortRecord));
    next = place + sizeof(log_form::ShortRecord);
    last += ticks;
    left -= ticks;
    __atomic_store_n(reinterpret_cast<uint64_t *>(place), log_form::make_short(ticks, what, other), __ATOMIC_RELEASE);
  }
  void go_on(uint64_t ticks, unsigned status, uint32_t other) {
    current = other;
    put_short(ticks, status, other);
  }
  // Only where `like.has` said so in the same call: the converter knows nothing but the slot.
  void put_like(uint64_t ticks, unsigned slot, uint32_t other) { put_short(ticks, log_form::slots + slot, other); }
  // Whether both clocks are to be looked at, `at` the time of the call.
  bool is_to_look(uint64_t at) const { return at - looked >= far_ticks || !kept.stands(); }
  // Where the thread was switched out the call's time is read anew.
  void look_at_clocks(Moment &now) {
    if (costs_by_processor || is_to_look(now.at)) compare_clocks(now);
  }
  // What passed between two looks at both clocks of the thread, before its first record.
  // Only at the log's beginning: it sets the base of both clocks anew.
  void look_back(const Look &from, const Look &until, const Moment &now);
  // Whether a chunk is written as part of the one before, which began just now.
  // It counts iterations and writes nothing, so the chunk that comes next must report them (`begin_chunk`).
  bool joins_chunk(uint64_t ticks, uint64_t turns) {
    if (!chunk_began || ticks - chunk_began >= near_ticks) return false;
    joined_turns += turns;
    return true;
  }
  uint64_t begin_chunk(uint64_t ticks) {  // 0 where none begins; the turns that were joined to the last one
    chunk_began = ticks;
    return std::exchange(joined_turns, 0);
  }
  // Called by the new thread itself, with the lock of `make_thread_log` held.
  void begin_thread();  // another one goes on with it
  // Before a wait for a lock, in place of `look_at_clocks`, so that the wait is no code's on either clock.
  void wait_begins(Moment &now);
  // Others may wait while a lock is held: so the counter alone is read then, and records are made once it is let go, or
  // by the thread's next record.
  void ask_for_lock(const OwnLock &one) { lock = one; }
  void get_lock(Moment now, uint32_t name, unsigned kind);
  void leave_lock(const Release &when, uint32_t name, unsigned kind);  // also of one that records tell already
  void put_lock() {  // that the thread has, where no record tells it yet
    if (__builtin_expect(lock.got.at, false)) put_got();
  }
  // The last record of a call: whatever the recorder does after it counts as the program's code.
  void put_slow(const Moment &began);  // how long until now
  void tell_stood_still(uint64_t took);

 private:
  // No task has this number: the first record of a block is long, so that no two blocks begin alike.
  static constexpr uint32_t nobody = UINT32_MAX;
  // A record that begins before `end` always fits, with the eight bytes cleared behind it: `kept_free` is larger.
  bool has_room() const { return next < end; }

  // The bytes that say that a record is there come last, and before them what follows is cleared.
  void put_long(const log_form::RawRecord &record, uint32_t bytes);
  void follow(const log_form::RawRecord &record);
  void renew_left();
  bool put_short_of_lock(uint64_t at, unsigned what, uint32_t other);
  void put_got();
  void wait_ends(Moment &now);
  void look(uint64_t at) { looked = at, left = 0; }
  // One store: after a kill there is the old value or 0.
  static void clear(char *place) { __atomic_store_n(reinterpret_cast<uint64_t *>(place), 0, __ATOMIC_RELEASE); }

  uint64_t looked = 0, far_ticks;  // when both clocks were looked at last
  uint64_t near_ticks, chunk_began = 0, joined_turns = 0;
  char *block = nullptr;
  uint64_t written = 0;  // bytes of full blocks
  BothClocks both;
  OwnLock lock;
  uint64_t held_since = 0;  // ticks: a lock, for which the thread was switched out; 0 where clocks were read since

  void begin_clocks();
  void read_anew(Moment &now);
  void compare_clocks(Moment &now);
  std::optional<Passed> passed_since_lock(const Moment &now, bool has_stood);
  void put_all_passed(const Moment &now, Passed passed);
  void put_passed(const Moment &now, const Passed &passed);
  uint64_t own_time_since(const Moment &began) const;
  // False where the log has stopped, and then the record is dropped. It allocates and calls the system.
  bool grow();
  bool write_block();
  Times times(const Moment &now) const;
};

uint64_t time_since(const Moment &began);  // on the clock of costs: in ticks, or nanoseconds of the processor

// How long a call of the recorder takes that only makes a record, in nanoseconds of the clock of costs.
// Only before the calling thread has a log, since it lends the thread one without a file, and then resets it.
int64_t time_of_record(void (*call)());
