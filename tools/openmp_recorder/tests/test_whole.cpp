// The whole program as one text.
#include "events.hpp"
#include "head.hpp"
#include "program_time.hpp"
#include "span.hpp"
#include "check.hpp"
#include "whole.hpp"

namespace {
const std::string part = "task {  # one of the region's threads\n";
const std::string turns = "task {  # turns of the loop\n", of_turns = "taskgroup {  # the loop\n";

std::string parts(int64_t cost, unsigned count = 1) {
  std::string words;
  for (unsigned i = 0; i < count; i++) words += "  " + part + "    work " + std::to_string(cost) + "\n  }\n";
  return words;
}

std::string group(const std::string &within) { return "taskgroup {\n" + within + "}\n"; }

std::string pieces(unsigned count, int64_t cost, const std::string &indent = "      ") {
  std::string words;
  for (unsigned i = 0; i < count; i++)
    words += indent + turns + indent + "  work " + std::to_string(cost) + "\n" + indent + "}\n";
  return words;
}
}  // namespace

TEST(serial_code_is_work_of_the_root_and_a_region_a_group) {
  Program made(2);
  end_region(made.after(4), 2);
  made.after(7);
  EXPECT(made.text(), "work 100\n" + group(parts(4, 2)) + "work 7\n");
  EXPECT(made.found.whole->root->total, 115);
  EXPECT(made.found.whole->cost, 115);
}

TEST(what_makes_the_parts_of_a_region_takes_no_time) {
  Program made(2);
  end_region(made.after(4), 2);
  made.after(7);
  EXPECT(made.times(), "0 0 0 100\n1 0 100 104\n2 0 100 100\n3 1 100 104\n4 0 100 100\n5 0 104 111\n");
  EXPECT(event_lines(*made.found.whole).are_whole(), true);
}

TEST(a_later_phase_begins_where_its_first_part_does) {
  Program made(2);
  made.after(4);
  for (RecordKind kind : {RecordKind::SyncBegin, RecordKind::SyncEnd}) {
    for (unsigned thread : {1, 0}) made.add(thread, kind, 1 + thread, 0, ompt_sync_region_barrier_explicit).after(1);
  }
  end_region(made.after(5), 2);
  std::string parts = "1 0 100 105\n2 0 100 100\n3 1 100 104\n4 0 100 100\n";
  EXPECT(made.times(),
         "0 0 0 100\n" + parts + "5 1 106 106\n6 1 106 113\n7 1 106 106\n8 0 107 113\n9 1 106 106\n10 0 113 113\n");
}

TEST(a_region_without_code_is_no_end_of_a_segment) {
  Program made;
  end_region(made);
  made.after(7);
  EXPECT(made.times(), "0 0 0 107\n");
}

TEST(pieces_of_a_chunk_share_its_time_and_are_made_at_once) {
  Program made;
  loop(made.after(4), 0, 4, {{3, 6 * us}, {1, 5 * us}});
  end_region(made);
  EXPECT(made.times(), "0 0 0 100\n1 0 100 104\n2 0 104 2104\n3 0 104 104\n4 0 2104 4104\n5 0 104 104\n"
                       "6 0 4104 6104\n7 0 104 104\n8 0 6104 11104\n9 0 104 104\n10 0 11104 11104\n"
                       "11 0 100 100\n12 0 11104 11104\n");
}

TEST(what_makes_the_pieces_of_a_later_chunk_stands_where_the_first_chunk_began) {
  Program made;
  loop(made.after(4), 0, 4, {{2, 4 * us}, {2, 6 * us}});
  end_region(made);
  EXPECT(made.times(), "0 0 0 100\n1 0 100 104\n2 0 104 2104\n3 0 104 104\n4 0 2104 4104\n5 0 104 104\n"
                       "6 0 4104 7104\n7 0 104 104\n8 0 7104 10104\n9 0 104 104\n10 0 10104 10104\n"
                       "11 0 100 100\n12 0 10104 10104\n");
}

TEST(pieces_have_their_times_in_a_text_of_any_size_too) {
  Program made;
  loop(made.after(4), 0, 4, {{3, 6 * us}, {1, 5 * us}});
  end_region(made);
  Events few = event_lines((made.times(), *made.found.whole));
  print_program(*made.found.whole, {1, true, true}, Places(), [](std::string_view) {});
  Events many = event_lines(*made.found.whole);
  EXPECT(many.are_whole(), true);
  EXPECT(told_times(*made.found.whole, std::move(many)), told_times(*made.found.whole, std::move(few)));
}

TEST(time_off_the_processor_is_told_by_segment) {
  Program made;
  made.after(50 * us).passed(0, 50 * us, 20 * us, true).add(0, RecordKind::SyncBegin, 1, 0, ompt_sync_region_taskwait);
  made.add(0, RecordKind::SyncEnd, 1, 0, ompt_sync_region_taskwait).add(0, RecordKind::Divided, 4, 1, 0, 50);
  made.add(0, RecordKind::Chunk, 4)
      .after(80 * us)
      .passed(0, 80 * us, 40 * us, true, true)
      .add(0, RecordKind::DividedEnd, 0, 1);
  end_region(made);
  made.times();
  EXPECT(off_lines(*made.found.whole, made.found.whole->off),
         "1 30000 0\n3 0 10000\n5 0 10000\n7 0 10000\n9 0 10000\n");
}

TEST(time_off_the_processor_in_chunks_that_are_joined_is_of_the_first) {
  Program made;
  loop(made, 0, 3, {{1, 300}, {1, 400}});
  made.add(0, RecordKind::Divided, 1, 1, 0, 50)
      .add(0, RecordKind::Chunk, 1)
      .after(900)
      .add(0, RecordKind::Chunk, 1)
      .after(90);
  made.passed(0, 60 * us, 40 * us, true).add(0, RecordKind::DividedEnd, 0, 1);
  end_region(made);
  std::string times = made.times();
  EXPECT_PART(times, "\n5 0 800 1790\n");
  EXPECT(off_lines(*made.found.whole, made.found.whole->off), "5 90 0\n");  // no more than the segment's time
}

TEST(chunks_that_are_written_together_ran_from_the_first_to_the_last) {
  Program made(2);
  loop(made.after(4), 0, 3, {{1, 300}, {1, 400}, {1, 500}});
  made.barrier(1, 2);
  end_region(made);
  EXPECT(made.times(), "0 0 0 100\n1 0 100 104\n2 0 104 1304\n3 0 104 104\n4 0 1304 1304\n5 0 100 100\n"
                       "6 1 100 1304\n7 0 100 100\n8 0 1304 1304\n");
}

TEST(a_region_that_is_met_again_stands_apart) {
  Program made;
  end_region(made.after(4));
  made.after(7).add(0, RecordKind::ParallelBegin, 0, 2).add(0, RecordKind::ImplicitBegin, 9, 2, 0, 1).after(3);
  made.add(0, RecordKind::ImplicitEnd, 9).add(0, RecordKind::ParallelEnd, 0, 2);
  EXPECT(made.text(), "work 100\n" + group(parts(4)) + "work 7\n" + group(parts(3)));
  EXPECT(made.found.whole->regions, 2u);
}

TEST(a_barrier_is_the_end_of_a_group_and_what_costs_nothing_leaves_no_trace) {
  Program made(2);
  made.after(4);
  for (RecordKind kind : {RecordKind::SyncBegin, RecordKind::SyncEnd})
    for (unsigned thread : {0, 1}) made.add(thread, kind, 1 + thread, 0, ompt_sync_region_barrier_explicit);
  made.barrier(1, 2);
  end_region(made.after(5));
  EXPECT(made.text(), "work 100\n" + group(parts(4, 2)) + group(parts(5)));
}

TEST(a_chunk_of_k_turns_is_k_pieces_of_its_cost) {
  Program made;
  loop(made.after(4), 0, 4, {{3, 6 * us}, {1, 5 * us}});
  end_region(made);
  std::string words = made.text();
  EXPECT_PART(words,
              "  " + part + "    work 4\n    " + of_turns + pieces(3, 2 * us) + pieces(1, 5 * us) + "    }\n  }\n");
  EXPECT(made.found.whole->root->total, 104 + 11 * us);
  EXPECT(span_of(*made.found.whole), 104 + 5 * us);
  EXPECT(made.found.whole->pieces, 4u);
  EXPECT(made.found.whole->remarks[Remark::EqualTurns].times, 1u);
  EXPECT(made.found.whole->remarks->count(Remark::TurnsTogether), 0u);
}

TEST(sections_are_told_from_loops) {
  Program made;
  made.add(0, RecordKind::Divided, 1, 1, static_cast<unsigned>(Divided::Sections), 50)
      .add(0, RecordKind::Chunk, 1)
      .after(2 * us);
  end_region(made.add(0, RecordKind::DividedEnd, 0, 1));
  std::string words = "task {  # a section\n        work 2000\n      }\n    }\n";
  EXPECT_PART(made.text(), "taskgroup {  # the sections\n      " + words);
  EXPECT(made.found.whole->sections, 1u);
  EXPECT(made.found.whole->loops, 0u);
}

TEST(turns_have_the_place_of_their_loop) {
  Program made;
  loop(made, 0, 2, {{2, 4 * us}});
  end_region(made);
  made.whole();
  Places places;
  places.put(reinterpret_cast<const void *>(50), "tri.c:9");
  std::string words = whole_text(*made.found.whole, {}, places);
  EXPECT_PART(words, "taskgroup {  # the loop at tri.c:9\n      task {  # turns of the loop at tri.c:9\n");
}

TEST(the_head_tells_what_a_whole_programs_text_has) {
  Program made(2);
  loop(made.after(4 * us), 0, 4, {{4, 8 * us}});
  end_region(made, 2);
  WholeProgram &whole = *made.whole().whole;
  Recording recording{"sort", "2026-11-24T00:10:02Z", 0, {100, 12 * us}, {100, 24 * us + 100, true}, &whole};
  std::string head = head_of(whole, recording, Options(), Places());
  EXPECT_PART(head,
              R"(# whole program: {"regions": 1, "loops": 1, "pieces": 4, "together below": 1000}
# covers: {"text": 24100, "program": 24200}
# not covered: {"of the program": 100}
)");
  EXPECT_PART(head, "# in serial code: 100\n# in loops: 8000\n# in parts without tasks: 16000\n# in tasks: 0\n");
  EXPECT_PART(head, R"(# divided: {"what": "code", "threads": 2, "parts": 2, "beside": 4000})");
  EXPECT_PART(head, "# remark: {\"remark\": \"equal turns\", \"times\": 1, \"span\": \"low\"}\n");
}

TEST(what_is_left_over_of_a_chunk_goes_to_its_first_pieces) {
  Program made;
  loop(made, 0, 3, {{3, 6 * us + 2}});
  end_region(made);
  EXPECT_PART(made.text(), pieces(2, 2 * us + 1) + pieces(1, 2 * us));
}

TEST(turns_of_less_than_a_microsecond_are_written_together) {
  Program made;
  loop(made, 0, 1000, {{1000, 20 * us}});
  end_region(made);
  EXPECT_PART(made.text(), of_turns + pieces(20, us) + "    }\n");
  EXPECT(made.found.whole->remarks[Remark::TurnsTogether].times, 1u);  // of a span of 120 ns
}

TEST(turns_that_joined_a_chunk_are_told_after_it) {
  Program made;
  made.add(0, RecordKind::Divided, 5, 1, 0, 50)
      .add(0, RecordKind::Chunk, 1)
      .after(6 * us)
      .add(0, RecordKind::Chunk, 1, 0, 0, 2);
  end_region(made.after(2 * us).add(0, RecordKind::DividedEnd, 0, 0, 0, 1));
  EXPECT_PART(made.text(), of_turns + pieces(3, 2 * us) + pieces(2, us));
  EXPECT(made.found.whole->short_chunks.at(reinterpret_cast<const void *>(50)).times, 3u);
}

TEST(loops_have_few_turns_where_no_thread_has_more_than_two) {
  for (unsigned turns : {3, 4, 0}) {
    Program made(2);
    made.add(0, RecordKind::Divided, turns, 1, 0, 50).add(0, RecordKind::Chunk, 1).after(6 * us);
    end_region(made.add(0, RecordKind::DividedEnd, 0), 2);
    WholeProgram &whole = *made.whole().whole;
    Recording recording{"sort", "2026-11-24T00:10:02Z", 0, {100, 12 * us}, {100, 24 * us + 100, true}, &whole};
    std::string head = head_of(whole, recording, Options(), Places());
    EXPECT((head.find("# few turns: ") != std::string::npos), turns == 3);
    EXPECT(whole.most_turns.at(reinterpret_cast<const void *>(50)).turns, turns);
  }
}

// Of such a loop the compiler asks for the thread's first chunk alone.
TEST(turns_that_are_not_told_are_counted_by_the_loop) {
  Program made(2);
  for (unsigned thread : {0, 1}) loop(made, thread, 8, {{1, 8 * us}});
  end_region(made, 2);
  std::string words = made.text();
  EXPECT_PART(words, of_turns + pieces(4, 2 * us) + "    }\n");
  EXPECT(made.found.whole->pieces, 8u);
}

TEST(a_chunk_that_makes_tasks_is_code_of_its_part) {
  Program made;
  made.add(0, RecordKind::Divided, 2, 1, 0, 50)
      .add(0, RecordKind::Chunk, 1)
      .after(2 * us)
      .add(0, RecordKind::Chunk, 1)
      .after(3 * us);
  made.create(0, 1, 3).after(4 * us).add(0, RecordKind::DividedEnd, 0, 1);
  end_region(made.run(0, 1, 3, 5 * us));
  EXPECT_PART(made.text(), "    " + of_turns + pieces(1, 2 * us) + "    }\n    work 3000\n" +
                               "    task {\n      work 5000\n    }\n    work 4000\n");
  EXPECT(made.found.whole->divided[Divided::Loops].times, 1u);
  EXPECT(made.found.whole->loops, 0u);
}

TEST(of_one_thread_all_turns_are_one_chunk_where_none_is_told) {
  Program made;
  made.add(0, RecordKind::Divided, 4, 1, 0, 50).after(8 * us).add(0, RecordKind::DividedEnd, 0, 1);
  end_region(made);
  EXPECT_PART(made.text(), "    " + of_turns + pieces(4, 2 * us) + "    }\n");
}

TEST(a_loop_whose_chunks_are_not_told_stays_as_it_was_divided) {
  Program made(2);
  loop(made.after(1), 0, 8, {});
  end_region(made.after(2), 2);
  EXPECT_PART(made.text(), "  " + part + "    work 3\n  }\n");
  EXPECT(made.found.whole->divided[Divided::Loops].times, 1u);
}

TEST(a_region_in_a_task_stands_where_the_task_met_it) {
  Program made;
  made.create(0, 1, 3).barrier(0, 1).go(0, 1, 3).after(2).add(0, RecordKind::ParallelBegin, 3, 2);
  made.add(0, RecordKind::ImplicitBegin, 9, 2, 0, 1)
      .after(5)
      .add(0, RecordKind::ImplicitEnd, 9)
      .add(0, RecordKind::ParallelEnd, 0, 2);
  made.after(3).go(0, 3, 1, ompt_task_complete).add(0, RecordKind::ParallelEnd, 0, 1);
  EXPECT_PART(made.text(), "    task {\n      work 2\n      taskgroup {\n        " + part +
                               "          work 5\n        }\n      }\n      work 3\n    }\n");
  EXPECT(made.found.whole->root->total, 110);
  EXPECT(made.found.whole->remarks->count(Remark::NestedRegion), 0u);
}

TEST(threads_are_as_many_as_ran_at_once) {
  Program made(3);
  made.region_inside(2, 4, us).region_inside(3, 2, us);
  end_region(made, 3);
  EXPECT(made.whole().whole->threads, 3u + 3u);
}

TEST(a_region_without_a_place_in_another_is_the_programs) {
  Program made;
  made.after(2)
      .add(0, RecordKind::ParallelBegin, 1, 2, is_runtimes)
      .add(0, RecordKind::ImplicitBegin, 9, 2, 0, 1)
      .after(5);
  made.add(0, RecordKind::ImplicitEnd, 9).add(0, RecordKind::ParallelEnd, 0, 2);
  end_region(made.after(3));
  EXPECT_PART(made.text(),
              "    work 2\n    taskgroup {\n      " + part + "        work 5\n      }\n    }\n    work 3\n");
  EXPECT(in_code(made.found), 10);
}

TEST(tasks_and_loops_outside_of_regions_are_code_of_the_root) {
  Program made;
  end_region(made.after(4));
  made.add(0, RecordKind::ImplicitBegin, 9, 0, is_initial)
      .after(1)
      .create(0, 9, 3, is_undeferred)
      .run(0, 9, 3, 5)
      .after(2);
  loop(made, 0, 2, {{2, 4 * us}}, 0);
  EXPECT_PART(made.text(), "work 1\ntask if(0) {\n  work 5\n}\nwork 4002\n");
  EXPECT(made.found.outside.times, 0u);
}

TEST(a_program_that_was_killed_in_a_region_has_what_ran_until_then) {
  Program made(2);
  made.after(4).barrier(1, 2).after(3).add(0, RecordKind::Cancel, 1);
  made.whole({0, 1, false, true});
  EXPECT(text_of(*made.found.whole), "work 100\n" + group(parts(7) + parts(4)));
}

TEST(a_program_that_was_killed_outside_of_regions_ran_until_its_last_record) {
  Program made;
  end_region(made.after(4));
  Region &all = *made.whole({0, 0, false, true}).whole;
  text_of(all);  // which gives the segments their numbers
  EXPECT_PART(told_times(all, event_lines(all)), " 104 104\n");
}

TEST(tasks_are_those_of_their_region_and_chunks_are_none) {
  Program made;
  loop(made, 0, 4, {{2, 3 * us}, {2, 3 * us}});
  end_region(made.create(0, 1, 3).run(0, 1, 3, 7));
  Run &run = made.whole();
  EXPECT(run.regions.at(1)->created - run.regions.at(1)->chunks, 1u);
}

TEST(a_thread_that_the_program_made_is_beside_the_first) {
  Program made(2);
  end_region(made.after(4), 2);
  made.add(1, RecordKind::ImplicitBegin, 9, 0, is_initial).add(1, RecordKind::ParallelBegin, 9, 2);
  made.add(1, RecordKind::ImplicitBegin, 10, 2, 0, 1)
      .after(6)
      .add(1, RecordKind::ImplicitEnd, 10)
      .add(1, RecordKind::ParallelEnd, 0, 2);
  std::string words = made.text();
  EXPECT(words.substr(0, 5), "task ");
  EXPECT_PART(words, "  taskgroup {\n    " + part + "      work 6\n    }\n  }\n");
  EXPECT(made.found.whole->remarks[Remark::OtherThread].times, 1u);
}

TEST(by_the_processors_clock_it_has_its_code_outside_of_regions) {
  set_record_clock({true, 0});
  Program made(2);
  end_region(made.after(4), 2);
  made.add(1, RecordKind::ImplicitBegin, 9, 0, is_initial).add(1, RecordKind::ParallelBegin, 9, 2);
  made.add(1, RecordKind::ImplicitBegin, 10, 2, 0, 1)
      .after(6)
      .add(1, RecordKind::ImplicitEnd, 10)
      .add(1, RecordKind::ParallelEnd, 0, 2);
  made.after(5).add(1, RecordKind::ImplicitEnd, 9, 0, is_initial);
  std::string words = made.text();
  set_record_clock({false, 0});
  EXPECT_PART(words, part + "  work 1004\n  taskgroup {\n    " + part + "      work 6\n    }\n  }\n  work 5\n}\n");
}

TEST(chunks_that_are_shorter_than_a_piece_are_one_with_those_after_them) {
  Program made;
  loop(made, 0, 7, {{1, 400}, {1, 400}, {1, 400}, {1, 3 * us}, {1, 100}, {1, 200}, {1, 2 * us}});
  end_region(made);
  EXPECT_PART(made.text(),
              of_turns + pieces(1, 1200) + pieces(1, 3 * us) + pieces(1, 300) + pieces(1, 2 * us) + "    }\n");
  EXPECT(made.found.whole->root->total, 100 + 6500);
  EXPECT(made.found.whole->pieces, 4u);
}

TEST(what_does_not_fit_the_commands_has_longer_pieces_where_the_span_stays) {
  Program made;
  loop(made.after(100000 * us), 0, 100000, {{100000, 100000 * us}});
  end_region(made);
  Run &run = made.whole();
  EXPECT(run.whole->least_piece > us, true);
  EXPECT(run.whole->pieces <= most_tasks, true);
  EXPECT(run.whole->remarks->count(Remark::TurnsTogether), 0u);
}

// Of two threads: the second waits for the first, whose turn has no wait and costs one microsecond more.
TEST(turns_that_wait_for_each_other_are_tasks_with_depend) {
  Program made(2);
  auto turn = [](uint64_t number, ompt_dependence_type_t type) { return std::vector<DependItem>{item(type, number)}; };
  for (unsigned thread : {0, 1}) made.add(thread, RecordKind::Divided, 2, 1, 0, 50).add(thread, RecordKind::Chunk, 1);
  made.after(5 * us).depend(0, 0, turn(0, ompt_dependence_type_source));
  made.depend(1, 0, turn(0, ompt_dependence_type_sink));
  made.after(4 * us).depend(1, 0, turn(1, ompt_dependence_type_source));
  for (unsigned thread : {0, 1}) made.add(thread, RecordKind::DividedEnd, 0, 1);
  end_region(made, 2);
  std::string words = made.text();
  EXPECT(span_of(*made.found.whole), 100 + 9 * us);
  EXPECT_PART(words, "  task depend(in: a0) depend(inout: a2) depend(out: a3) {  # turns of the loop\n    work 5000\n");
  EXPECT(made.found.whole->root->total, 100 + 9 * us + 1 * us + 4 * us);  // the last: what the first thread does then
  EXPECT(made.found.whole->remarks[Remark::WaitsForTurns].times, 1u);
  EXPECT(made.found.whole->has_events, true);
  std::string times = made.times();
  EXPECT_PART(times, "\n5 0 100 5100\n");  // from where its chunk began
  EXPECT_PART(times, "\n9 1 100 1100\n");  // without its wait for the other
  EXPECT_PART(times, "\n11 1 5100 9100\n");
}

// The second thread was off its processor for most of the time: it does not look as if it had come late and not waited.
TEST(the_first_wait_of_a_thread_begins_with_its_chunk) {
  Program made(2);
  auto turn = [](uint64_t number, ompt_dependence_type_t type) { return std::vector<DependItem>{item(type, number)}; };
  for (unsigned thread : {0, 1}) made.add(thread, RecordKind::Divided, 2, 1, 0, 50).add(thread, RecordKind::Chunk, 1);
  made.after(5 * us).depend(0, 0, turn(0, ompt_dependence_type_source));
  made.after(40 * us).stood_still(41 * us).depend(1, 0, turn(0, ompt_dependence_type_sink));
  made.after(4 * us).depend(1, 0, turn(1, ompt_dependence_type_source));
  for (unsigned thread : {0, 1}) made.add(thread, RecordKind::DividedEnd, 0, 1);
  end_region(made, 2);
  made.whole();
  EXPECT(made.found.whole->remarks[Remark::WaitsForTurns].times, 1u);
}

TEST(a_turn_in_order_ends_where_the_next_begins_though_it_is_told_later) {
  Program made(2);
  for (unsigned thread : {0, 1}) made.add(thread, RecordKind::Divided, 2, 1, 0, 50).add(thread, RecordKind::Chunk, 1);
  made.after(3 * us).add(0, RecordKind::LockGot, 7, 0, order_of_turns).after(2 * us);
  made.add(1, RecordKind::LockGot, 7, 0, order_of_turns).after(us).add(0, RecordKind::LockLeft, 7, 0, order_of_turns);
  made.after(us).add(1, RecordKind::LockLeft, 7, 0, order_of_turns);
  for (unsigned thread : {0, 1}) made.add(thread, RecordKind::DividedEnd, 0, 1).barrier(thread, 1 + thread);
  made.add(0, RecordKind::ParallelEnd, 0, 1);
  std::string times = made.times();
  EXPECT_PART(times, " 0 3100 5100\n");
  EXPECT_PART(times, " 1 5100 7100\n");
}

TEST(turns_that_take_a_lock_in_order_are_a_chain_there) {
  Program made(2);
  for (unsigned thread : {0, 1}) made.add(thread, RecordKind::Divided, 2, 1, 0, 50).add(thread, RecordKind::Chunk, 1);
  made.after(3 * us);
  for (unsigned thread : {0, 1}) {
    made.add(thread, RecordKind::LockGot, 7, 0, order_of_turns).after(2 * us);
    made.add(thread, RecordKind::LockLeft, 7, 0, order_of_turns).add(thread, RecordKind::DividedEnd, 0, 1);
    made.barrier(thread, 1 + thread);
  }
  made.add(0, RecordKind::ParallelEnd, 0, 1);
  made.whole();
  EXPECT(made.found.whole->pieces, 6u);
  EXPECT(span_of(*made.found.whole), 100 + 5 * us + 2 * us);  // the second thread is told to come there after 5
}
