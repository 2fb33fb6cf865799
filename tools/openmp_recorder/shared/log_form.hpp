// The binary form of a log, which LOG.md describes: what the recorder's library writes and `convert_log` reads.
// NAME.spanprof/log is a folder with a head, a list of modules, and two files of each thread: blocks of its records,
// and the last block, which is mapped while the thread fills it.
#pragma once
#include <cstdint>
#include <cstring>
#include <string>

#include "record_kind.hpp"

namespace log_form {
constexpr char magic[8] = {'S', 'P', 'A', 'N', 'P', 'L', 'O', 'G'};
constexpr uint32_t version = 6;
constexpr const char *log_folder = "/log";  // of a recording
constexpr const char *head_file = "/head", *modules_file = "/modules", *thread_file = "/thread.", *last_block = ".last";
constexpr const char *paths_file = "/paths";  // of creations, where call paths were asked for
constexpr const char *samples_file = "/samples.";  // of a thread

// In machine order. Kinds are those of `RecordKind`. Where the first eight bytes are 0 no record is written yet, and
// the block's records end there. A record by the processor's clock has eight bytes more: that clock of the thread, in
// nanoseconds.
struct RawRecord {
  uint64_t at;  // ticks when the runtime called; the highest bit is 0
  uint32_t task, other;  // numbers of tasks, 0 where there is none; `other` is also a region
  uint64_t word;  // where in the program, 48 bits; the kind, 8; a detail, 8
};
constexpr uint32_t bytes_by_wall = sizeof(RawRecord), bytes_by_processor = bytes_by_wall + sizeof(int64_t);

// By the wall clock most records are short, from the lowest bit on: `other`, 32 bits; ticks since the thread's record
// before, 24; its meaning, 7. Their task is the one that the thread is in by its records before.
using ShortRecord = uint64_t;
constexpr ShortRecord short_bit = uint64_t{1} << 63;
constexpr unsigned other_bits = 32, short_ticks = 24, what_bits = 7;
constexpr uint64_t ticks_too_long = uint64_t{1} << short_ticks;
constexpr ShortRecord make_short(uint64_t ticks, unsigned what, uint32_t other) {
  return short_bit | uint64_t{what} << (other_bits + short_ticks) | ticks << other_bits | other;
}

// The meaning of a short record: below 63 that the thread goes to another task, with this status; at 63 that it lets
// the lock go that it got last. Else it is like the thread's last long record that has this slot, which those have that
// make a task, begin or end a wait, or get a lock.
constexpr unsigned slots = 64, lock_left = slots - 1;
constexpr unsigned slot_of(uint64_t code, unsigned kind) {
  constexpr unsigned apart = 27;  // so that those of one place have slots of their own
  return static_cast<unsigned>((code >> 2) + kind * apart) % slots;
}

// A lock by 32 bits: no two are alike within 16 GB, and others by chance.
constexpr uint32_t lock_name(uint64_t address) { return static_cast<uint32_t>(address >> 2 ^ address >> 34); }

inline uint32_t wait_of(float ticks) {  // as the record of a lock has it
  uint32_t bits;
  static_assert(sizeof bits == sizeof ticks, "as LOG.md has it");
  std::memcpy(&bits, &ticks, sizeof bits);
  return bits;
}
inline float ticks_waited(uint32_t bits) {
  float ticks;
  std::memcpy(&ticks, &bits, sizeof ticks);
  return ticks;
}

constexpr uint32_t block_bytes = 8 * 12288;  // whole pages
constexpr uint32_t kept_free = 64;  // at the end of a block: the last record that begins before, and what is cleared

constexpr uint64_t code_bits = 48, code_mask = (uint64_t{1} << code_bits) - 1;
constexpr uint64_t make_word(uint64_t code, unsigned kind, unsigned detail) {
  return (code & code_mask) | uint64_t{kind} << 48 | uint64_t{detail} << 56;
}
// A place of a creation may be a call path: its number in the list, above the two lowest bits. No address of a program
// has the highest bit.
constexpr uint64_t path_bit = uint64_t{1} << 47;
constexpr unsigned path_shift = 2;
constexpr uint64_t place_of_path(uint64_t number) { return path_bit | number << path_shift; }
constexpr uint64_t path_of(uint64_t place) { return place & path_bit ? (place & ~path_bit) >> path_shift : 0; }
constexpr uint32_t most_paths = 16384, most_calls = 32;

// What a thread ran, one sample behind the other in windows of the file: the time is 0 where a window has no more.
constexpr uint64_t window_bytes = 1 << 16;
constexpr unsigned most_frames = 48, general_registers = 16;
struct RawSample {
  uint64_t at;  // the time-stamp counter
  int64_t wall;  // CLOCK_MONOTONIC
  uint32_t stands_for;  // microseconds of the thread's processor time, or that it slept
  uint16_t took;  // nanoseconds
  uint8_t frames, slept;  // whether the thread slept for so long, in the function that is called innermost
  uint64_t *calls() { return reinterpret_cast<uint64_t *>(this + 1); }  // addresses outwards, as many as frames
  unsigned registers() const { return slept ? 0 : general_registers; }  // behind them, in DWARF's order
  size_t bytes() const { return sizeof *this + (frames + registers()) * sizeof(uint64_t); }
};
static_assert(sizeof(RawSample) == 24, "as LOG.md has it");

constexpr RecordKind record_kind_of(uint64_t word) { return static_cast<RecordKind>(word >> code_bits & 255); }

enum class Counter : uint32_t { ClockGettime, TimeStamp };
// Own: by the counter, and each switch of a thread stands in a record. Then costs can leave out what others took.
enum class Costs : uint32_t { Wall, Processor, Own };
enum class HowEnded : uint32_t { Not, ByRuntime, InsideARegion };  // Not: killed, or it goes on
enum class Stopped : uint32_t { Not, Full, Unwritable, Numbers, End };  // Full: the disk is

enum Off : unsigned { slept = 1, taken = 2 };  // bits: how the thread lost its processor while both clocks passed

// Ticks of the counter and nanoseconds of CLOCK_MONOTONIC at one moment.
struct Pair {
  uint64_t ticks;
  int64_t wall;
};

struct Head {
  char magic[8];
  uint32_t version, record_bytes;
  Counter counter;
  Costs costs;
  Pair first, second;  // when recording began, and a millisecond or more later
  int64_t time_of_day;  // of `first`, in nanoseconds since 1970
  int64_t program_start;  // on CLOCK_MONOTONIC
  int64_t in_a_record;  // nanoseconds that a record takes, on the clock of costs
  uint32_t process, is_child;
  uint32_t unseen;  // bits: gcc's `detach`, its `target`, a second runtime
  HowEnded how_ended;
  Pair end;  // when it ended, or recording stopped inside a region
  int64_t end_processor;  // of the thread that ended it
  uint32_t end_thread;
  Stopped stopped;  // why, where recording stopped before the program did
  Pair stop;
  char program[256];  // its path
};
static_assert(sizeof(Head) == 400, "as LOG.md has it");

// Behind the head: what the system counted of the process until its last sample or its end.
struct Usage {
  int64_t user, system;  // nanoseconds
  int64_t faults;  // that read no file
  int64_t peak;  // bytes of memory
  int64_t given_up, taken;  // how often its threads lost their processors: by their own calls, to others
  int64_t of_children;  // nanoseconds of those that it waited for
};
static_assert(sizeof(Usage) == 56, "as LOG.md has it");
enum Unseen : uint32_t { unseen_detach = 1, unseen_target = 2, unseen_runtime = 4 };
}  // namespace log_form
