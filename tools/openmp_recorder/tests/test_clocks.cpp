// Both clocks beside each other.
#include <time.h>

#include <utility>

#include "clocks.hpp"
#include "program_time.hpp"
#include "records.hpp"
#include "check.hpp"
#include "made.hpp"

namespace {
void sleep_for(long microseconds) {
  timespec time{0, microseconds * 1000};
  nanosleep(&time, nullptr);
}

void work_for(int64_t microseconds) {
  for (int64_t end = processor_time() + microseconds * 1000; processor_time() < end;) {
  }
}

Times times(const Clock &clock) { return {wall_time(), clock.of_processor ? processor_time() : 0}; }

// What a thread's clocks passed until a record, after another one.
template <class Code>
std::vector<Passed> passed_by(const Clock &clock, Code code) {
  BothClocks both(clock.of_processor);
  both.at_record(times(clock));
  code(both);
  std::vector<Passed> out;
  if (std::optional<Passed> passed = both.at_record(times(clock))) out.push_back(*passed);
  return out;
}

const Clock wall{false, 0}, processor{true, 0};
}  // namespace

TEST(what_passes_in_a_short_time_is_not_looked_at) {
  EXPECT(passed_by(processor, [](BothClocks &) {}).size() <= 1, true);
}

TEST(a_thread_that_sleeps_is_off_the_processor) {
  for (const Clock &clock : {wall, processor}) {
    std::vector<Passed> passed = passed_by(clock, [](BothClocks &) { sleep_for(5000); });
    EXPECT(passed.size(), 1u);
    EXPECT(passed[0].wall >= 5000000, true);
    EXPECT(passed[0].processor < 2500000, true);
    EXPECT(passed[0].differ(), true);
    EXPECT(passed[0].slept, true);
  }
}

TEST(a_sleep_before_the_first_record_counts) {
  Look first = look_now();
  sleep_for(5000);
  Passed passed = passed_between(first, look_now());
  EXPECT(passed.off() >= 2500000, true);
  EXPECT(passed.slept, true);
}

TEST(how_long_it_was_put_off_beside_a_sleep) {
  auto put_off = [](int64_t first, int64_t last) {
    return passed_between({{1000, 100}, 1, 1, first}, {{2000, 200}, 2, 2, last}).put_off;
  };
  EXPECT(put_off(50, 150), 100);
  EXPECT(put_off(50, 5000), 900);  // no longer than it was off
  EXPECT(put_off(50, -1), 900);  // where the kernel does not say
}

TEST(a_sleep_counts_where_it_was) {
  BothClocks both(false);
  both.at_record(times(wall));
  sleep_for(100);
  work_for(5000);
  both.at_record(times(wall));  // nearly no difference, with a sleep
  work_for(1000);
  std::optional<Passed> passed = both.at_record(times(wall));
  EXPECT(passed.has_value(), true);
  EXPECT(passed->slept, false);
}

TEST(one_that_works_is_not_asleep) {
  for (const Clock &clock : {wall, processor}) {
    std::vector<Passed> passed = passed_by(clock, [](BothClocks &) { work_for(5000); });
    EXPECT(passed.size(), 1u);
    EXPECT(passed[0].processor >= 5000000, true);
    EXPECT(passed[0].slept, false);
  }
}

TEST(waiting_for_a_lock_is_no_code) {
  for (const Clock &clock : {wall, processor}) {
    std::vector<Passed> passed = passed_by(clock, [&](BothClocks &both) {
      work_for(1000);
      both.wait_begins(times(clock));
      sleep_for(5000);
      both.wait_ends(times(clock));
      work_for(1000);
    });
    EXPECT(passed.size(), 1u);
    EXPECT(passed[0].processor >= 2000000, true);
    EXPECT(passed[0].slept, false);
  }
}

TEST(processor_time_outside_of_regions) {
  Log log(0);
  work_for(3000);
  int64_t now = processor_time();
  log.regions.push_back({1, true, 0, 1, now - 1000000});  // that many nanoseconds in it
  log.regions.push_back({2, false, 0, 1, 500000});  // inside the first
  int64_t outside = processor_time_outside(log, processor_time());
  EXPECT(outside >= 1000000 && outside <= 2000000, true);
  log.regions.push_back({3, true, 0, 0, -processor_time()});  // which runs
  EXPECT(processor_time_outside(log, processor_time()) <= outside + 1000000, true);
}

TEST(time_outside_of_the_regions_of_a_thread) {
  Log log(0);
  log.regions = {{1, true, 10, 14}, {2, false, 11, 12}, {3, true, 18, 0}};  // of which the last goes on
  EXPECT(time_outside(log, 5, 20), 9);
  EXPECT(meets_regions(log), false);  // where it is one of the runtime's
  log.has_initial_task = true;
  EXPECT(meets_regions(log), true);
}

TEST(a_twentieth_is_the_difference_that_counts) {
  EXPECT((Passed{false, 1000, 950}.differ()), false);
  EXPECT((Passed{false, 1000, 949}.differ()), true);
  EXPECT((Passed{false, 1000, 1001}.off()), 0);
}

// By the wall clock what the thread was preempted for; a task that slept, and was not preempted beside that, took that
// time, which is told apart.
TEST(code_off_the_processor_counts_for_its_region) {
  for (auto [slept, taken] : {std::pair{false, false}, {false, true}, {true, true}, {true, false}}) {
    bool counts = taken || !slept;
    Made made(2);
    made.create(0, 1, 3).barrier(0, 1).barrier(1, 2).go(1, 2, 3).after(1000).passed(1, 1000, 400, slept, taken);
    Run run = made.go(1, 3, 2, ompt_task_complete).read();
    const Differing &differing = run.regions.begin()->second->differing;
    EXPECT(differing.cost, counts ? 1000 : 0);
    EXPECT(differing.off, counts ? 600 : 0);
    EXPECT(differing.slightly, 0);
    EXPECT(run.regions.begin()->second->asleep->off, counts ? 0 : 600);
    const std::vector<Preempted> &preempted = run.regions.begin()->second->preempted;
    EXPECT(preempted.size(), counts ? 1u : 0u);
    if (counts) EXPECT(preempted[0].off, 600);
  }
}

TEST(a_thread_without_code_may_be_off_the_processor) {
  Made made(2);
  made.create(0, 1, 3).barrier(0, 1).barrier(1, 2).after(1000).passed(1, 1000, 400, false).run(1, 2, 3, 5);
  EXPECT(made.read().regions.begin()->second->differing->off, 0);
}
