// A region whose threads make tasks, before and after barriers.
#include "compose.hpp"
#include "program_time.hpp"
#include "check.hpp"
#include "made.hpp"

namespace {
const std::string part = "  task {  # one of the region's threads\n";

Made &explicit_barrier(Made &made) {
  for (unsigned thread : {0, 1})
    made.add(thread, RecordKind::SyncBegin, 1 + thread, 0, ompt_sync_region_barrier_explicit);
  for (unsigned thread : {0, 1})
    made.add(thread, RecordKind::SyncEnd, 1 + thread, 0, ompt_sync_region_barrier_explicit);
  return made;
}
}  // namespace

TEST(the_only_part_with_tasks_is_the_root) {
  Run run = Made(2).barrier(1, 2).after(4).create(0, 1, 3).barrier(0, 1).run(1, 2, 3, 5).read();
  EXPECT(text_of(only_region(run)), "work 4\ntask {\n  work 5\n}\n");
}

TEST(several_parts_are_tasks_in_a_group) {
  Run run = Made(2)
                .after(4)
                .create(0, 1, 3)
                .create(1, 2, 4)
                .barrier(0, 1)
                .barrier(1, 2)
                .run(1, 2, 3, 5)
                .run(0, 1, 4, 6)
                .read();
  Region &region = only_region(run);
  EXPECT(text_of(region), "taskgroup {\n" + part + "    work 4\n    task {\n      work 5\n    }\n  }\n" + part +
                              "    work 4\n    task {\n      work 6\n    }\n  }\n}\n");
  EXPECT(events_of(region).substr(0, 63), "start 0 0\nfinish 0 0\nstart 0 4\nfinish 0 4\nstart 0 8\nfinish 0 8\n");
}

TEST(a_barrier_ends_a_group) {
  Made made(2);
  made.create(0, 1, 3);
  explicit_barrier(made).run(0, 1, 3, 5).create(1, 2, 4).barrier(0, 1).barrier(1, 2).run(0, 1, 4, 6);
  Run run = made.read();
  EXPECT(text_of(only_region(run)), "taskgroup {\n" + part +
                                        "    task {\n      work 5\n    }\n  }\n}\n"
                                        "taskgroup {\n" +
                                        part + "    work 5\n    task {\n      work 6\n    }\n  }\n}\n");
}

TEST(a_long_part_without_tasks_is_written) {
  Run run = Made(2).create(0, 1, 3).barrier(0, 1).after(2000000).barrier(1, 2).run(0, 1, 3, 5).read();
  Region &region = only_region(run);
  EXPECT_PART(text_of(region), part + "    work 2000000\n  }\n");
  EXPECT(region.in_parts, 2000000);
  EXPECT(region.in_tasks, 5);
}

TEST(one_of_a_hundredth_of_the_work_is_left_out) {
  Run light = Made(2).create(0, 1, 3).barrier(0, 1).after(10).barrier(1, 2).run(0, 1, 3, 990).read();
  Region &region = only_region(light);
  EXPECT(text_of(region), "task {\n  work 990\n}\n");
  EXPECT(region.in_parts, 10);
  Run heavier = Made(2).create(0, 1, 3).barrier(0, 1).after(10).barrier(1, 2).run(0, 1, 3, 989).read();
  EXPECT_PART(text_of(only_region(heavier)), part + "    work 10\n  }\n");
}

// Each by itself is less than a hundredth.
TEST(parts_are_left_out_by_their_sum) {
  const int steps = 200;
  Made made(2);
  made.create(0, 1, 3);
  explicit_barrier(made).run(0, 1, 3, 500);
  for (int i = 0; i < steps; i++) explicit_barrier(made.after(100));
  Run run = made.barrier(0, 1).barrier(1, 2).read();
  Region &region = only_region(run);
  EXPECT(region.root->total >= region.cost - region.cost / 100, true);
  EXPECT(region.root->total < region.cost, true);
  EXPECT(region.remarks.empty(), true);
}

// Of a region of three threads: one makes a task of 5, one takes this time, and one takes none.
unsigned parts_written(bool with_bare_ones, int64_t cost) {
  Run run = Made(3).create(0, 1, 4).barrier(0, 1).barrier(2, 3).after(cost).barrier(1, 2).run(0, 1, 4, 5).read();
  Region &region = *run.regions.begin()->second;
  EXPECT(compose(region, with_bare_ones), true);
  EXPECT(region.remarks->count(Remark::PartsLeftOut), !with_bare_ones && cost ? 1u : 0u);
  return region.root->part ? 1 : region.root->children;
}

TEST(which_parts_are_written) {
  EXPECT(parts_written(true, 0), 1u);
  EXPECT(parts_written(true, 5), 2u);
  EXPECT(parts_written(false, 5), 1u);
}

TEST(parts_with_tasks_come_first) {
  Run run = Made(2).after(4).create(1, 2, 3).barrier(0, 1).barrier(1, 2).run(0, 1, 3, 5).read();
  EXPECT(text_of(only_region(run)),
         "taskgroup {\n" + part + "    work 4\n    task {\n      work 5\n    }\n  }\n" + part + "    work 4\n  }\n}\n");
}

TEST(the_runtimes_own_region_is_no_code) {
  Run run = Made()
                .add(0, RecordKind::ParallelBegin, 0, 2, is_runtimes)
                .add(0, RecordKind::ImplicitBegin, 9, 2, 0, 1)
                .after(50)
                .add(0, RecordKind::ImplicitEnd, 9)
                .read();
  EXPECT(run.regions.at(2)->cost, 50);
  EXPECT(in_code(*run.regions.at(2)), 0);
}

// A region of two threads in a task of 100: its other thread runs so long, and this one half of it.
Run region_in_a_task(int64_t other) {
  Made made(2);
  made.create(0, 1, 3).barrier(0, 1).barrier(1, 2).go(0, 1, 3).add(0, RecordKind::ParallelBegin, 3, 2);
  made.add(0, RecordKind::ImplicitBegin, 4, 2, 0, 2)
      .add(1, RecordKind::ImplicitBegin, 5, 2, 0, 2)
      .after(other / 2)
      .barrier(0, 4);
  made.after(other - other / 2).barrier(1, 5).add(1, RecordKind::ImplicitEnd, 5).after(100 - other);
  made.add(0, RecordKind::ImplicitEnd, 4).after(7).go(0, 3, 1, ompt_task_complete);
  return made.read();
}

TEST(a_region_in_a_task_counts_there_but_for_what_its_other_threads_do) {
  Run run = region_in_a_task(60);
  Region &outer = *run.regions.at(1), &inner = *run.regions.at(2);
  EXPECT(outer.in_own_regions, 100);
  EXPECT(in_code(outer), 7);
  EXPECT(in_code(inner), 30 + 60);
  EXPECT(in_code(run), 97);
  EXPECT(compose(inner), false);
  remark_nested(inner);
  EXPECT(outer.remarks->count(Remark::NestedRegion), 1u);
  inner.met.passed = 59;  // as by the processor's clock, where waiting is nothing
  remark_nested(inner);
  EXPECT(outer.remarks->count(Remark::NestedWaits), 1u);
}

TEST(a_region_without_tasks_is_none) {
  Run run = Made(2).after(5).barrier(0, 1).barrier(1, 2).read();
  EXPECT(compose(*run.regions.begin()->second), false);
}

TEST(events_of_too_many_tasks_are_given_up) {
  Made made(2);
  made.create(0, 1, 3).create(1, 2, 4).create(1, 2, 5).barrier(0, 1).barrier(1, 2);
  made.run(1, 2, 3, 5).run(0, 1, 4, 6).run(0, 1, 5, 7);
  Run whole = made.read(), kept = made.read({}, {3}), given_up = made.read({}, {2});
  std::string text = text_of(only_region(whole));
  EXPECT(text_of(only_region(kept)), text);
  EXPECT(kept.regions.begin()->second->has_events, true);
  EXPECT(text_of(only_region(given_up)), text);
  EXPECT(given_up.regions.begin()->second->has_events, false);
}
