// Regions that are let go when they are over.
#include "chosen.hpp"
#include "compose.hpp"
#include "program_time.hpp"
#include "check.hpp"
#include "made.hpp"

namespace {
// Two threads, of which the first makes a task that costs 500, and the parts of 30 and 70 that end last.
Made with_a_task() {
  Made made(2);
  made.create(0, 1, 3).run(0, 1, 3, 500).after(30).barrier(0, 1).after(40).barrier(1, 2);
  return made;
}

Made &end_threads(Made &made) {
  return made.add(0, RecordKind::ImplicitEnd, 1, 1).add(1, RecordKind::ImplicitEnd, 2, 1);
}

Made over() {
  Made made = with_a_task();
  end_threads(made).add(0, RecordKind::ParallelEnd, 0, 1);
  return made;
}

Made &begin_another(Made &made) {
  return made.add(0, RecordKind::ParallelBegin, 0, 2).add(0, RecordKind::ImplicitBegin, 11, 2, 0, 1).after(5);
}

// Another region makes a task behind it.
Made followed(Made made) {
  begin_another(made).create(0, 11, 12);
  return made;
}

HowToRead holding(uint64_t most) {
  HowToRead how;
  how.most_held = most;
  return how;
}

Region &region_of(Run &run) { return *run.regions.begin()->second; }
}  // namespace

TEST(what_is_let_go_has_the_sums_of_what_is_held) {
  Run all = followed(over()).read(), few = followed(over()).read({}, holding(2));
  Region &held = region_of(all), &gone = region_of(few);
  EXPECT(gone.is_released, true);
  EXPECT(gone.tasks.size(), 0u);
  EXPECT(held.tasks.size(), 3u);
  EXPECT(compose(gone), compose(held));
  EXPECT(work_of(gone), work_of(held));
  EXPECT(gone.in_parts, held.in_parts);
  EXPECT(in_code(gone), in_code(held));
  EXPECT(gone.created, held.created);
}

TEST(a_region_without_tasks_is_let_go_too) {
  Made made;
  made.after(50).barrier(0, 1).add(0, RecordKind::ImplicitEnd, 1, 1).add(0, RecordKind::ParallelEnd, 0, 1);
  Run run = made.read({}, holding(0));
  EXPECT(region_of(run).is_released, true);
  EXPECT(compose(region_of(run)), false);
  EXPECT(in_code(region_of(run)), 50);
}

TEST(the_last_one_is_held_until_another_makes_a_task) {
  Made made = over(), without_tasks = over();
  begin_another(without_tasks).add(0, RecordKind::ImplicitEnd, 11, 2).add(0, RecordKind::ParallelEnd, 0, 2);
  for (Made *held : {&made, &without_tasks}) {
    Run run = held->read({}, holding(0));
    EXPECT(region_of(run).is_released, false);
    EXPECT(region_of(run).tasks.size(), 3u);
  }
  Run run = followed(over()).read({}, holding(0));
  EXPECT(region_of(run).is_released, true);
  EXPECT(run.regions[2]->is_released, false);
}

TEST(what_there_is_room_for_is_held) {
  Run run = followed(over()).read({}, holding(3));
  EXPECT(region_of(run).is_released, false);
}

TEST(what_is_asked_for_is_held) {
  HowToRead how = holding(0);
  how.held = {1};
  Run run = followed(over()).read({}, how);
  EXPECT(region_of(run).is_released, false);
}

TEST(threads_may_end_after_their_region) {
  Made made = with_a_task();
  end_threads(made.add(0, RecordKind::ParallelEnd, 0, 1));
  Run run = followed(std::move(made)).read({}, holding(0));
  EXPECT(region_of(run).is_released, true);
}

TEST(a_region_is_held_while_a_thread_is_in_it) {
  Made made = with_a_task();
  made.add(0, RecordKind::ImplicitEnd, 1, 1).add(0, RecordKind::ParallelEnd, 0, 1);
  Run run = followed(std::move(made)).read({}, holding(0));
  EXPECT(region_of(run).is_released, false);
}

TEST(a_region_is_held_where_a_task_did_not_end) {
  Made made = with_a_task();
  made.create(0, 1, 4);
  end_threads(made).add(0, RecordKind::ParallelEnd, 0, 1);
  Run run = followed(std::move(made)).read({}, holding(0));
  EXPECT(region_of(run).is_released, false);
}

TEST(a_region_in_a_task_of_another_is_held) {
  Made made(2);
  made.create(0, 1, 3)
      .go(0, 1, 3)
      .add(0, RecordKind::ParallelBegin, 3, 2)
      .add(0, RecordKind::ImplicitBegin, 4, 2, 0, 1);
  made.after(10)
      .add(0, RecordKind::ImplicitEnd, 4, 2)
      .add(0, RecordKind::ParallelEnd, 3, 2)
      .go(0, 3, 1, ompt_task_complete);
  end_threads(made).add(0, RecordKind::ParallelEnd, 0, 1).add(0, RecordKind::ParallelBegin, 0, 3);
  made.add(0, RecordKind::ImplicitBegin, 11, 3, 0, 1).create(0, 11, 12);
  Run run = made.read({}, holding(0));
  EXPECT(region_of(run).is_released, true);
  EXPECT(run.regions[2]->is_released, false);
}
