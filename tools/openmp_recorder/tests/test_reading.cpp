// Records as the runtime tells them, and the text and events that come of them.
#include "check.hpp"
#include "made.hpp"

TEST(costs_stand_between_what_the_task_meets) {
  Run run = Made()
                .after(10)
                .create(0, 1, 2)
                .after(20)
                .create(0, 1, 3)
                .after(5)
                .add(0, RecordKind::SyncBegin, 1, 0, ompt_sync_region_taskwait)
                .run(0, 1, 3, 7)
                .run(0, 1, 2, 8)
                .add(0, RecordKind::SyncEnd, 1, 0, ompt_sync_region_taskwait)
                .after(4)
                .barrier(0, 1)
                .read();
  EXPECT(text_of(only_region(run)),
         "work 10\ntask {\n  work 8\n}\nwork 20\ntask {\n  work 7\n}\nwork 5\ntaskwait\nwork 4\n");
  EXPECT(events_of(only_region(run)), "start 0 0\nfinish 0 0\nstart 0 2\nfinish 0 2\nstart 0 4\nfinish 0 4\n"
                                      "start 0 3\nfinish 0 3\nstart 0 1\nfinish 0 1\nstart 0 5\nfinish 0 5\n");
}

TEST(time_in_the_recorder_is_no_cost) {
  Run run = Made().after(30).stood_still(12).create(0, 1, 2).run(0, 1, 2, 3).barrier(0, 1).read();
  EXPECT(text_of(only_region(run)), "work 18\ntask {\n  work 3\n}\n");
}

TEST(a_group_ends_where_its_wait_begins) {
  Run run = Made()
                .add(0, RecordKind::SyncBegin, 1, 0, ompt_sync_region_taskgroup)
                .after(3)
                .create(0, 1, 2)
                .after(2)
                .add(0, RecordKind::WaitBegin, 1, 0, ompt_sync_region_taskgroup)
                .run(0, 1, 2, 9)
                .add(0, RecordKind::SyncEnd, 1, 0, ompt_sync_region_taskgroup)
                .after(6)
                .barrier(0, 1)
                .read();
  EXPECT(text_of(only_region(run)), "taskgroup {\n  work 3\n  task {\n    work 9\n  }\n  work 2\n}\nwork 6\n");
}

TEST(a_barrier_ends_the_groups_around_it_and_begins_them_anew) {
  constexpr auto group = ompt_sync_region_taskgroup, barrier = ompt_sync_region_barrier_explicit;
  Made made(2);
  for (unsigned thread : {0u, 1u})
    made.add(thread, RecordKind::SyncBegin, 1 + thread, 0, group)
        .create(thread, 1 + thread, 3 + thread)
        .add(thread, RecordKind::SyncBegin, 1 + thread, 0, barrier);
  made.run(0, 1, 3, 9).run(1, 2, 4, 9);
  for (unsigned thread : {1u, 0u})
    made.add(thread, RecordKind::SyncEnd, 1 + thread, 0, barrier)
        .create(thread, 1 + thread, 5 + thread)
        .add(thread, RecordKind::WaitBegin, 1 + thread, 0, group);
  for (unsigned thread : {0u, 1u}) made.run(thread, 1 + thread, 5 + thread, 7);
  for (unsigned thread : {0u, 1u})
    made.add(thread, RecordKind::SyncEnd, 1 + thread, 0, group).barrier(thread, 1 + thread);
  Run run = made.read();
  std::string text = text_of(only_region(run));
  for (const char *cost : {"9", "7"}) {
    std::string part = "  task {  # one of the region's threads\n    taskgroup {\n      task {\n        work " +
                       std::string(cost) + "\n      }\n    }\n  }\n";
    EXPECT_PART(text, "taskgroup {\n" + part + part + "}\n");
  }
}

TEST(a_group_whose_begin_is_not_told_has_no_end) {
  Run run = Made()
                .create(0, 1, 2)
                .add(0, RecordKind::WaitBegin, 1, 0, ompt_sync_region_taskgroup)
                .run(0, 1, 2, 9)
                .add(0, RecordKind::SyncEnd, 1, 0, ompt_sync_region_taskgroup)
                .after(6)
                .barrier(0, 1)
                .read();
  EXPECT(text_of(only_region(run)), "task {\n  work 9\n}\nwork 6\n");
}

TEST(a_task_that_a_full_queue_runs_at_once_interrupts_its_maker) {
  Run run = Made().after(5).create(0, 1, 2).run(0, 1, 2, 4).after(1).barrier(0, 1).read();
  EXPECT(text_of(only_region(run)), "work 5\ntask {\n  work 4\n}\nwork 1\n");
  EXPECT(events_of(only_region(run)), "start 0 0\nfinish 0 0\nstart 0 1\nfinish 0 1\nstart 0 2\nfinish 0 2\n");
}

TEST(what_a_segment_did_before_it_was_left_has_no_times) {
  Run run = Made().after(5).create(0, 1, 2).after(3).run(0, 1, 2, 4).after(1).barrier(0, 1).read();
  EXPECT(only_region(run).untimed, 3);
}

TEST(a_wait_for_dependences_and_an_undeferred_task_are_one) {
  Run run = Made()
                .create(0, 1, 0, is_taskwait | is_undeferred, 100)
                .depend(0, 0, {item(ompt_dependence_type_in, 64)})
                .go(0, 1, 0, ompt_taskwait_complete)
                .create(0, 1, 2, is_undeferred, 120)
                .run(0, 1, 2, 5)
                .after(1)
                .barrier(0, 1)
                .read();
  EXPECT(text_of(only_region(run)), "task if(0) depend(in: a0) {\n  work 5\n}\nwork 1\n");
}

TEST(a_wait_that_is_told_alone_and_an_undeferred_task_are_two) {
  Run run = Made()
                .create(0, 1, 0, is_taskwait | is_undeferred | is_alone, 100)
                .depend(0, 0, {item(ompt_dependence_type_in, 64)})
                .go(0, 1, 0, ompt_taskwait_complete)
                .create(0, 1, 2, is_undeferred, 120)
                .run(0, 1, 2, 5)
                .after(1)
                .barrier(0, 1)
                .read();
  EXPECT(text_of(only_region(run)), "task if(0) depend(in: a0) {\n}\ntask if(0) {\n  work 5\n}\nwork 1\n");
}

TEST(a_wait_for_dependences_alone_is_an_empty_task) {
  Run run = Made()
                .create(0, 1, 2)
                .run(0, 1, 2, 2)
                .create(0, 1, 0, is_taskwait | is_undeferred, 100)
                .depend(0, 0, {item(ompt_dependence_type_in, 64)})
                .go(0, 1, 0, ompt_taskwait_complete)
                .after(3)
                .barrier(0, 1)
                .read();
  EXPECT(text_of(only_region(run)), "task {\n  work 2\n}\ntask if(0) depend(in: a0) {\n}\nwork 3\n");
}

TEST(an_untied_task_that_goes_on_at_once_keeps_its_parent_waiting) {
  Run run = Made()
                .create(0, 1, 2, is_untied)
                .go(0, 1, 2)
                .after(1)
                .go(0, 2, 1)
                .go(0, 2, 2)
                .after(6)
                .go(0, 2, 1, ompt_task_complete)
                .after(3)
                .barrier(0, 1)
                .read();
  EXPECT(text_of(only_region(run)), "task {\n  work 7\n}\nwork 3\n");
  EXPECT(events_of(only_region(run)), "start 0 0\nfinish 0 0\nstart 0 1\nfinish 0 1\nstart 0 2\nfinish 0 2\n");
}

TEST(an_end_that_another_thread_tells_is_of_the_thread_that_ran) {
  Run run = Made(2)
                .create(0, 1, 3, is_untied)
                .create(0, 1, 4)
                .barrier(0, 1)
                .barrier(1, 2)
                .go(0, 1, 3)
                .after(1)
                .go(0, 3, 1)
                .go(1, 2, 3)
                .after(9)
                .go(0, 3, 1, ompt_task_complete)
                .run(1, 2, 4, 5)
                .read();
  Region &region = only_region(run);
  EXPECT(text_of(region), "task {\n  work 10\n}\ntask {\n  work 5\n}\n");
  EXPECT(events_of(region), "start 0 0\nfinish 0 0\nstart 0 2\nfinish 0 2\nstart 0 4\nfinish 0 4\n"
                            "start 1 1\nfinish 1 1\nstart 1 3\nfinish 1 3\n");
  EXPECT(region.remarks->count(Remark::ToldLate), 0u);
}

TEST(an_untied_task_is_left_where_another_thread_takes_it_up) {
  Run run = Made(2)
                .create(0, 1, 3, is_untied)
                .barrier(0, 1)
                .barrier(1, 2)
                .go(0, 1, 3)
                .after(1)
                .go(1, 2, 3)
                .after(4)
                .go(0, 3, 1)
                .after(5)
                .go(1, 3, 2, ompt_task_complete)
                .read();
  Region &region = only_region(run);
  EXPECT(text_of(region), "task {\n  work 10\n}\n");
  EXPECT(events_of(region), "start 0 0\nfinish 0 0\nstart 0 2\nfinish 0 2\nstart 1 1\nfinish 1 1\n");
  EXPECT(region.remarks->empty(), true);
}

TEST(an_end_without_a_word_is_before_the_thread_runs_another) {
  Run run = Made(2)
                .create(0, 1, 3, is_untied)
                .create(0, 1, 4)
                .barrier(0, 1)
                .barrier(1, 2)
                .go(0, 1, 3)
                .go(0, 3, 1)
                .go(1, 2, 3)
                .after(9)
                .run(1, 2, 4, 5)
                .go(0, 3, 1, ompt_task_complete)
                .read();
  Region &region = only_region(run);
  EXPECT(text_of(region), "task {\n  work 9\n}\ntask {\n  work 5\n}\n");
  EXPECT(region.remarks->count(Remark::ToldLate), 1u);
}

TEST(an_untied_task_that_is_left_after_a_taskwait_with_depend_has_waited) {
  Run run = Made()
                .create(0, 1, 2, is_untied)
                .barrier(0, 1)
                .go(0, 1, 2)
                .create(0, 2, 0, is_taskwait | is_undeferred, 100)
                .depend(0, 0, {item(ompt_dependence_type_in, 64)})
                .go(0, 1, 0, ompt_taskwait_complete)
                .go(0, 2, 1)
                .after(50)
                .go(0, 1, 2)
                .after(7)
                .go(0, 2, 1, ompt_task_complete)
                .read();
  EXPECT(text_of(only_region(run)), "task {\n  task if(0) depend(in: a0) {\n  }\n  work 7\n}\n");
}

TEST(a_task_that_did_not_end_is_remarked_and_open_groups_are_closed) {
  Run run = Made()
                .create(0, 1, 2)
                .add(0, RecordKind::SyncBegin, 1, 0, ompt_sync_region_taskgroup)
                .after(3)
                .read({1003, 1003, false});
  Region &region = only_region(run);
  EXPECT(text_of(region), "task {\n}\ntaskgroup {\n  work 3\n}\n");
  EXPECT(region.remarks->count(Remark::Unfinished), 1u);
  EXPECT(region.remarks->count(Remark::LeftInside), 1u);
}

TEST(a_region_of_which_no_end_is_told_ends_with_the_records) {
  Made made;
  Run run = made.add(0, RecordKind::ParallelBegin, 1, 2).after(3).barrier(0, 1).read();
  Region &inner = *run.regions[2];
  EXPECT(inner.time.end, made.now());
  EXPECT(inner.remarks->count(Remark::LeftInside), 1u);
  EXPECT(run.regions[1]->remarks->count(Remark::LeftInside), 0u);
}

TEST(what_only_a_remark_can_tell) {
  Run run = Made()
                .create(0, 1, 2)
                .depend(0, 2, {item(ompt_dependence_type_mutexinoutset, 64), item(ompt_dependence_type_in, 0)})
                .create(0, 1, 0, is_target)
                .add(0, RecordKind::Cancel, 1)
                .go(0, 1, 2)
                .go(0, 2, 1, ompt_task_detach)
                .barrier(0, 1)
                .read();
  Region &region = only_region(run);
  for (Remark remark : {Remark::MutexInOutSet, Remark::AllMemory, Remark::Target, Remark::Cancel, Remark::Detach})
    EXPECT(region.remarks->count(remark), 1u);
  EXPECT(text_of(region), "task depend(inoutset: a0) {\n}\n");
}

TEST(tasks_that_only_make_those_of_a_loop_are_left_out) {
  Run run = Made(2)
                .after(2)
                .create(0, 1, 3)
                .after(1)
                .create(0, 1, 9)
                .add(0, RecordKind::SyncBegin, 1, 0, ompt_sync_region_taskwait)
                .barrier(1, 2)
                .go(1, 2, 3)
                .after(4)
                .create(1, 1, 4)
                .after(5)
                .create(1, 1, 5)
                .after(6)
                .go(1, 3, 2, ompt_task_complete)
                .run(1, 2, 5, 20)
                .run(1, 2, 9, 40)
                .go(1, 2, 4)
                .create(1, 1, 6)
                .after(7)
                .create(1, 1, 7)
                .go(1, 4, 2, ompt_task_complete)
                .run(1, 2, 6, 30)
                .run(1, 2, 7, 50)
                .add(0, RecordKind::SyncEnd, 1, 0, ompt_sync_region_taskwait)
                .barrier(0, 1)
                .read();
  Region &region = only_region(run);
  EXPECT_PART(text_of(region),
              "    work 2\n    task {\n      work 34\n    }\n    task {\n      work 57\n    }\n"
              "    task {\n      work 31\n    }\n    work 1\n    task {\n      work 40\n    }\n    taskwait\n");
  EXPECT_PART(events_of(region), "finish 0 1\nstart 0 3\nfinish 0 3\nstart 0 5\nfinish 0 5\nstart 0 7\nfinish 0 7\n");
}

TEST(what_ordered_turns_wait_for_is_remarked) {
  Run run = Made()
                .create(0, 1, 2)
                .run(0, 1, 2, 1)
                .depend(0, 0, {item(ompt_dependence_type_source, 3)})
                .depend(0, 0, {item(ompt_dependence_type_sink, 2), item(ompt_dependence_type_sink, 1)})
                .barrier(0, 1)
                .read();
  Region &region = only_region(run);
  EXPECT(region.remarks[Remark::BetweenTurns].times, 1u);
  EXPECT(region.remarks->count(Remark::UnknownItem), 0u);
}

TEST(items_beyond_the_limit_are_left_out) {
  std::vector<DependItem> items;
  for (uint64_t address = 1; address <= 65544; address++) items.push_back(item(ompt_dependence_type_in, address));
  Run run = Made().create(0, 1, 2).depend(0, 2, items).run(0, 1, 2, 1).barrier(0, 1).read();
  Region &region = only_region(run);
  EXPECT(region.tasks.back().items.size(), 65536u);
  EXPECT(region.remarks[Remark::ItemsLeftOut].times, 8u);
}

TEST(tasks_outside_of_regions_are_counted) {
  Run run = Made().create(0, 99, 2).read();
  EXPECT(run.outside.times, 1u);
}
