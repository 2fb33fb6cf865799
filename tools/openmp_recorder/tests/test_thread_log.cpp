// What a thread of the program appends is what is read, wherever the program is killed.
#include "thread_log.hpp"

#include <sys/stat.h>
#include <unistd.h>

#include <cstdio>
#include <cstdlib>
#include <memory>
#include <vector>

#include "log_head.hpp"
#include "thread_reader.hpp"
#include "check.hpp"

namespace {
constexpr uint64_t beginning = 1000;
Beginning place;
}  // namespace

// What log_head.cpp has of a process.
std::atomic<log_form::Stopped> log_stopped{log_form::Stopped::Not};
__thread ThreadLog *thread_log = nullptr;
const Beginning &this_log() { return place; }
double nanoseconds_of_tick() { return 0.001; }  // so no record is far from when both clocks were looked at
int64_t wall_time_at(uint64_t ticks) { return static_cast<int64_t>(ticks); }
void lose_switches() {}
void stop_log(log_form::Stopped why) { log_stopped = why; }

namespace {
// A thread that appends, by one of both clocks, and what is read of it.
class Appended {
 public:
  explicit Appended(log_form::Costs costs = log_form::Costs::Wall) {
    char name[] = "/tmp/spanprof-test-XXXXXX";
    place.folder = mkdtemp(name);
    costs_by_processor = costs == log_form::Costs::Processor;
    head.costs = costs;
    head.first = {beginning, static_cast<int64_t>(beginning)};
    head.second = {beginning + 1000, static_cast<int64_t>(beginning) + 1000};
  }
  ~Appended() {
    costs_by_processor = false;
    if (system(("rm -r " + place.folder).c_str())) std::perror("rm");
  }
  // Two in three go from a task to another, and one makes a task: short records, but for the first of a block and those
  // of another place than before.
  void append(ThreadLog &log, uint32_t number) {
    Moment now{beginning + 10 * number, static_cast<int64_t>(7 * number)};
    if (number % 3) return log.put(now, RecordKind::Schedule, task_of(number), task_of(number + 1), 0, number % 8);
    auto *code = reinterpret_cast<const void *>(place_of(number));
    uint64_t ticks = log.ticks_since_last(now.at);
    if (!costs_by_processor && log.like.has(RecordKind::Create, code, 0) && log.takes_short(ticks, task_of(number)))
      return log.put_like(ticks, LikeRecords::slot(RecordKind::Create, code), number);
    log.put(now, RecordKind::Create, task_of(number), number, place_of(number), 0);
    log.like.add(RecordKind::Create, code, 0);
  }
  uint64_t bytes_in_file() const {
    struct stat told {};
    return stat((place.folder + "/thread.0").c_str(), &told) ? 0 : static_cast<uint64_t>(told.st_size);
  }
  // How many records there are; 0 where one is another than was appended.
  uint32_t read() {
    ThreadReader reader(place.folder + "/thread.0", 0, head);
    uint32_t count = 0;
    while (const Record *record = reader.next()) {
      uint64_t ticks = beginning + 10 * count;
      bool is_made = count % 3 == 0;
      bool is_right = record->order == ticks && record->task == task_of(count) &&
                      record->other == (is_made ? count : task_of(count + 1)) &&
                      record->detail == (is_made ? 0 : count % 8) && record->code == (is_made ? place_of(count) : 0) &&
                      record->record_kind() == (is_made ? RecordKind::Create : RecordKind::Schedule) &&
                      record->at == static_cast<int64_t>(head.costs == log_form::Costs::Processor ? 7 * count : ticks);
      if (!is_right) return 0;
      count++;
    }
    return count;
  }

 private:
  // What makes a task is the one that was gone over to last, but for each hundredth.
  static uint32_t task_of(uint32_t number) { return number % 100 ? 5 + number - (number % 3 == 1) : 3; }
  static uint64_t place_of(uint32_t number) { return 90 + number / 1000; }

 public:
  log_form::Head head{};
};
}  // namespace

TEST(what_is_appended_is_read) {
  for (log_form::Costs costs : {log_form::Costs::Wall, log_form::Costs::Processor, log_form::Costs::Own}) {
    Appended made(costs);
    ThreadLog log(0);
    for (uint32_t i = 0; i < 30000; i++) made.append(log, i);  // several blocks
    EXPECT(made.read(), 30000u);
  }
}

// With how many records the first block was full.
static uint32_t records_in_a_block() {
  Appended made;
  ThreadLog log(0);
  uint32_t count = 0;
  while (!made.bytes_in_file()) made.append(log, count++);
  return count - 1;
}

TEST(time_before_the_first_record_is_appended_behind_it) {
  Appended made;
  ThreadLog log(0);
  made.append(log, 0);
  Look loaded{{1000, 300}, 1, 0}, met{{1000 + 2 * far_apart, 500}, 2, 0};
  log.look_back(loaded, met, {beginning, 0});
  ThreadReader reader(place.folder + "/thread.0", 0, made.head);
  EXPECT(reader.next()->record_kind() == RecordKind::Create, true);
  const Record *passed = reader.next();
  EXPECT(passed && passed->record_kind() == RecordKind::Passed, true);
  EXPECT(passed->passed.wall, 2 * far_apart);
  EXPECT(passed->passed.processor, 200);
  EXPECT(passed->passed.slept, true);
  EXPECT(passed->passed.taken, false);
}

// By no other clock: by the wall clock it is told, and counts. What it slept beside that counts too.
TEST(what_others_took_of_the_processor_is_left_out) {
  for (log_form::Costs costs : {log_form::Costs::Wall, log_form::Costs::Own}) {
    for (long taken : {0, 1}) {
      Appended made(costs);
      ThreadLog log(0);
      made.append(log, 0);
      Look before{{1000, 300}, 1, 0}, after{{1000 + 2 * far_apart, 500}, 2, taken, taken * far_apart};
      log.look_back(before, after, {beginning, 0});
      ThreadReader reader(place.folder + "/thread.0", 0, made.head);
      reader.next();
      bool is_left_out = taken && costs == log_form::Costs::Own;
      EXPECT(reader.next()->stood_still, is_left_out ? far_apart : 0);
    }
  }
}

namespace {
// A thread that records, and is seen where it is switched out; none on an old kernel or glibc.
class Switching {
 public:
  Switching() {
    look_for_switches(true);
    uint64_t began = later_wall_time();
    made.head.first = {began, static_cast<int64_t>(began)};
    made.head.second = {began + 1000, static_cast<int64_t>(began) + 1000};
    log = std::make_unique<ThreadLog>(0);
  }
  ~Switching() { switches_are_known = false; }
  bool is_known() const { return log->kept.is_known(); }
  void record() {
    Moment now{later_wall_time(), 0};
    if (log->is_to_look(now.at)) log->look_at_clocks(now);
    log->put(now, RecordKind::Schedule, 3, 3, 0, 0);
  }
  void wait_for_lock() {
    Moment asked{later_wall_time(), 0};
    log->wait_begins(asked);
    log->ask_for_lock({nullptr, 7, 1, asked});
    usleep(3000);
    log->get_lock({later_wall_time(), 0}, 7, 1);
  }
  // What is told of both clocks.
  std::vector<Passed> passed() {
    ThreadReader reader(place.folder + "/thread.0", 0, made.head);
    std::vector<Passed> out;
    while (const Record *record = reader.next())
      if (record->record_kind() == RecordKind::Passed) out.push_back(record->passed);
    return out;
  }

 private:
  Appended made{log_form::Costs::Own};
  std::unique_ptr<ThreadLog> log;
};
}  // namespace

TEST(a_thread_that_slept_tells_so_with_its_next_record) {
  Switching thread;
  if (!thread.is_known()) return;
  thread.record();
  usleep(3000);
  thread.record();
  std::vector<Passed> told = thread.passed();
  EXPECT(told.empty(), false);
  EXPECT(told.back().slept, true);
  EXPECT(told.back().off() >= 2000000, true);
}

TEST(sleep_in_a_wait_for_a_lock_is_not_told) {
  Switching thread;
  if (!thread.is_known()) return;
  thread.record();
  thread.wait_for_lock();
  thread.record();
  for (const Passed &one : thread.passed()) EXPECT(one.slept && one.off() >= 2000000, false);
}

TEST(the_wait_for_a_lock_is_no_sleep_while_it_is_held) {
  Switching thread;
  if (!thread.is_known()) return;
  thread.record();
  thread.wait_for_lock();
  Passed held = {};
  int64_t wall = wall_time(), processor = processor_time();
  while (processor_time() - processor < 3000000) continue;
  usleep(100);
  held.wall = wall_time() - wall, held.processor = processor_time() - processor;
  thread.record();
  for (const Passed &one : thread.passed()) EXPECT(one.off() <= held.off() + 200000, true);
}

TEST(of_sleep_in_a_lock_and_before_it_no_more_is_told_than_the_lock_was_held) {
  Switching thread;
  if (!thread.is_known()) return;
  thread.record();
  thread.wait_for_lock();
  int64_t got = wall_time();
  usleep(1000);
  thread.record();
  int64_t held = wall_time() - got;
  std::vector<Passed> told = thread.passed();
  EXPECT(told.empty(), false);
  EXPECT(told.back().off() <= held + 100000, true);
  EXPECT(told.back().slept, true);
}

namespace {
void take_lock(ThreadLog &log, uint64_t at, uint32_t name) {
  log.is_slow = false;
  log.put_lock();
  log.ask_for_lock({&place, name, 1, {at, 0}});
  log.get_lock({at + 20, 0}, name, 1);
}
void leave_lock(ThreadLog &log, uint64_t at, uint32_t name) { log.leave_lock({{at, 0}, true}, name, 1); }

// The lock's use, and how many records came with it.
std::pair<LockUse, int> use_of(const Appended &made, uint32_t name) {
  ThreadReader reader(place.folder + "/thread.0", 0, made.head);
  int count = 0;
  while (reader.next()) count++;
  auto &uses = reader.log.locks.uses();
  auto found = uses.find({0, name});
  return {found == uses.end() ? LockUse{} : found->second, count};
}
}  // namespace

TEST(a_lock_is_told_once_it_is_let_go) {
  for (log_form::Costs costs : {log_form::Costs::Wall, log_form::Costs::Processor}) {
    Appended made(costs);
    ThreadLog log(0);
    made.append(log, 0);
    constexpr uint64_t first = beginning + 100, many = 30000;
    for (uint64_t i = 0; i < many; i++) {
      take_lock(log, first + 100 * i, 7);
      leave_lock(log, first + 100 * i + 50, 7);
    }
    auto [use, count] = use_of(made, 7);
    EXPECT(use.times, many);
    EXPECT(use.waiting, static_cast<int64_t>(20 * many));
    EXPECT(use.code == &place, true);
    EXPECT(count, 1);
    if (costs == log_form::Costs::Processor) continue;
    EXPECT(use.inside, static_cast<int64_t>(30 * many));
    EXPECT(use.alone, use.inside);
    EXPECT(made.bytes_in_file() <= 17 * many, true);
  }
}

TEST(a_lock_is_told_before_what_its_thread_tells_inside) {
  Appended made;
  ThreadLog log(0);
  made.append(log, 0);
  take_lock(log, beginning + 1000, 7);
  take_lock(log, beginning + 1100, 8);
  leave_lock(log, beginning + 1150, 7);
  log.put({beginning + 1200, 0}, RecordKind::Schedule, 3, 3, 0, 0);
  leave_lock(log, beginning + 1400, 8);
  for (uint32_t name : {7U, 8U}) {
    auto [use, count] = use_of(made, name);
    EXPECT(use.times, 1u);
    EXPECT(use.inside, name == 7 ? 150 - 20 - 20 : 280);
    EXPECT(use.alone, name == 7 ? use.inside : 0);
    EXPECT(count, 2);
  }
}

TEST(most_records_take_eight_bytes) { EXPECT(records_in_a_block() > log_form::block_bytes / 8 * 9 / 10, true); }

TEST(after_each_record_all_so_far_are_there) {
  uint32_t full = records_in_a_block();
  Appended made;
  ThreadLog log(0);
  for (uint32_t i = 0; i < full + 600; i++) {
    made.append(log, i);
    bool is_near_the_end_of_a_block = i < 120 || (i + 20 > full && i < full + 20);
    if (is_near_the_end_of_a_block) EXPECT(made.read(), i + 1);
  }
  EXPECT(made.read(), full + 600);
}

// Both begin with readings of their own, so that a block that was written and not cleared counts once.
TEST(each_block_begins_with_a_long_record) {
  Appended made;
  ThreadLog log(0);
  for (uint32_t i = 0; i < 30000; i++) made.append(log, i);
  FILE *file = fopen((place.folder + "/thread.0").c_str(), "re");
  uint64_t first = 0;
  for (long at = 0; at < static_cast<long>(made.bytes_in_file()); at += log_form::block_bytes) {
    fseek(file, at, SEEK_SET);
    EXPECT(fread(&first, sizeof first, 1, file), 1u);
    EXPECT(first & log_form::short_bit, 0u);
  }
  fclose(file);
}
