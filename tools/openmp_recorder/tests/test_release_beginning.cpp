// The beginning of the whole program that is let go.
#include "head.hpp"
#include "log_damage.hpp"
#include "span.hpp"
#include "stretches.hpp"
#include "program_text.hpp"
#include "whole.hpp"

namespace {
void begin_region(Made &made, uint32_t region, uint32_t implicit, unsigned threads = 2) {
  made.add(0, RecordKind::ParallelBegin, 0, region);
  for (unsigned i = 0; i < threads; i++) made.add(i, RecordKind::ImplicitBegin, implicit + i, region, 0, threads);
}

void close_region(Made &made, uint32_t region, uint32_t implicit, unsigned threads = 2) {
  for (unsigned i = 0; i < threads; i++) made.barrier(i, implicit + i);
  made.add(0, RecordKind::ParallelEnd, 0, region);
}

// Three regions, each with tasks that depend on each other, a loop, and serial code behind it.
Program three_regions() {
  Program made(2);
  for (uint32_t region : {1, 2, 3}) {
    uint32_t implicit = 100 * region - 99, task = 100 * region;
    if (region > 1) begin_region(made, region, implicit);
    for (uint32_t i = 0; i < 3; i++) {
      made.after(10).create(0, implicit, task + i, 0, 100 + i);
      made.depend(0, task + i, {item(ompt_dependence_type_inout, 8 * region + i % 2)});
    }
    for (uint32_t i = 0; i < 3; i++) made.run(1, implicit + 1, task + i, 1000 * region + i);
    loop(made, 0, 5, {{2, 4 * us}, {1, 300}, {2, 500}}, region);
    close_region(made.after(7), region, implicit);
    made.after(20 + region);
  }
  return made;
}

struct Sums {
  int64_t span = 0, work = 0;
  uint64_t segments = 0, tasks = 0;
};

Sums sums_of(Region &region) {
  RootEnds ends;
  LocationEnds locations;
  Size size;
  auto add = [&](Region &part) {
    add_up(part);
    Size own = size_of(part);
    span_of(part, locations);
    ends.add(*part.root);
    size.add(own);
  };
  each_stretch(region, false, add);
  add(region);
  return {ends.span(), size.total, size.segments, size.tasks};
}

void expect_same(Run &few, Run &all) {
  Sums some = sums_of(*few.whole), every = sums_of(*all.whole);
  EXPECT(some.span, every.span);
  EXPECT(some.work, every.work);
  EXPECT(some.segments, every.segments);
  EXPECT(some.tasks, every.tasks);
  EXPECT(text_of(*few.whole, {1, true, false}), text_of(*all.whole, {1, true, false}));
}
}  // namespace

TEST(what_is_over_is_let_go_with_its_text) {
  Program made = three_regions();
  Run few = std::move(made.released()), all = std::move(made.whole());
  EXPECT(few.whole->before != nullptr, true);
  EXPECT(few.whole->tasks.size() < all.whole->tasks.size() / 2, true);
  EXPECT(few.whole->before->tasks + few.whole->before->chunks.back() > 10, true);
  expect_same(few, all);
}

TEST(times_of_what_is_let_go_are_those_of_what_is_held) {
  Program made(2);
  for (uint32_t region : {1, 2, 3, 4}) {
    uint32_t implicit = 100 * region - 99, task = 100 * region;
    if (region > 1) begin_region(made, region, implicit);
    made.after(10).create(0, implicit, task).run(1, implicit + 1, task, 1000).passed(1, 900, 400, true);
    loop(made.after(100 * us).passed(0, 90 * us, 10 * us, true), 0, 5, {{2, 4 * us}, {1, 300}, {2, 500}}, region);
    close_region(made.after(7), region, implicit);
    made.after(50 * us).passed(0, 50 * us, 20 * us, true);
  }
  Run few = std::move(made.released());
  EXPECT(few.whole->before->count() > 1, true);
  std::string times = times_of(*few.whole);
  EXPECT(times, times_of(*made.whole().whole));
  EXPECT(times.find("\n0 ") != std::string::npos, true);
}

TEST(sums_of_what_is_let_go_are_those_of_what_is_held) {
  Program made = three_regions();
  Run few = std::move(made.released()), all = std::move(made.whole());
  WholeProgram &some = *few.whole, &every = *all.whole;
  EXPECT(some.cost, every.cost);
  EXPECT(some.work, every.work);
  EXPECT(some.serial, every.serial);
  EXPECT(some.in_loops, every.in_loops);
  EXPECT(some.in_parts, every.in_parts);
  EXPECT(some.in_tasks, every.in_tasks);
  EXPECT(some.pieces, every.pieces);
  EXPECT(some.loops, every.loops);
  EXPECT(some.least_piece, every.least_piece);
  EXPECT(some.remarks[Remark::EqualTurns].times, every.remarks[Remark::EqualTurns].times);
  Beside beside = beside_each_other(some.parts), wanted = beside_each_other(every.parts);
  beside.add(some.before->beside);
  EXPECT(beside.cost, wanted.cost);
  EXPECT(beside.parts, wanted.parts);
}

TEST(places_of_what_is_let_go_stand_in_the_head) {
  Program made = three_regions();
  Run &few = made.released();
  each_stretch(*few.whole, false, [&](Region &stretch) {
    add_up(stretch);
    size_of(stretch);
    few.whole->before->take_sums(stretch, 1);
  });
  std::vector<const void *> codes = codes_of(*few.whole);
  EXPECT(std::count(codes.begin(), codes.end(), reinterpret_cast<const void *>(uintptr_t{102})), 1);
}

TEST(nothing_is_let_go_while_a_task_before_it_did_not_end) {
  Program made(2);
  made.create(0, 1, 50);
  close_region(made.after(5), 1, 1);
  begin_region(made, 2, 11);
  close_region(made.after(5), 2, 11);
  EXPECT(made.released().whole->before == nullptr, true);
}

TEST(what_a_thread_of_the_program_runs_stands_before_what_was_let_go) {
  Program made(2);
  close_region(made.after(4), 1, 1);
  begin_region(made, 2, 11);
  close_region(made.after(5), 2, 11);
  EXPECT(made.released().whole->before->count(), 1u);
  made.add(1, RecordKind::ImplicitBegin, 9, 0, is_initial).add(1, RecordKind::ParallelBegin, 9, 3);
  made.add(1, RecordKind::ImplicitBegin, 20, 3, 0, 1)
      .after(6)
      .add(1, RecordKind::ImplicitEnd, 20)
      .add(1, RecordKind::ParallelEnd, 0, 3);
  EXPECT(made.released().whole->before->count(), 3u);
  EXPECT(made.text().substr(0, 5), "task ");
}

TEST(a_task_outside_of_regions_is_let_go_where_it_is_awaited) {
  for (unsigned detail : {unsigned{is_undeferred}, 0U}) {
    Program made;
    end_region(made.after(4));
    made.add(0, RecordKind::ImplicitBegin, 9, 0, is_initial).create(0, 9, 3, detail).run(0, 9, 3, 5).after(2);
    for (uint32_t region : {2, 3}) {
      begin_region(made, region, 10 * region, 1);
      close_region(made.after(5), region, 10 * region, 1);
    }
    EXPECT(made.released().whole->before->chunks.size(), detail ? 2u : 1u);
    made.text();
  }
}

TEST(a_program_of_one_region_is_held) {
  Program made(2);
  made.create(0, 1, 50).run(1, 2, 50, 5);
  close_region(made.after(5), 1, 1);
  EXPECT(made.released().whole->before == nullptr, true);
}

TEST(regions_of_many_names_are_let_go_each_by_itself) {
  Program made(2);
  close_region(made.after(4), 1, 1);
  for (uint32_t region = 2; region < 40; region++) {
    begin_region(made, region, 10 * region);
    made.create(0, 10 * region, 1000 + region);
    made.depend(0, 1000 + region, {item(ompt_dependence_type_in, region)}).run(1, 10 * region + 1, 1000 + region, 3);
    close_region(made.after(region), region, 10 * region);
  }
  EXPECT(made.text().size() > 1000, true);
  EXPECT(made.released().whole->before->chunks.size() > 30, true);
}

namespace {
std::string why_refused(Program &made) {
  try {
    made.released();
  } catch (const DamagedLog &damage) {
    return damage.what();
  }
  return {};
}
}  // namespace

// As a damaged log may tell it.
TEST(chunks_of_a_part_that_stands_nowhere_are_left_out) {
  Program made(2);
  close_region(made, 1, 1);
  made.sync(1, 2, ompt_sync_region_barrier_explicit);
  loop(made, 1, 5, {{1, 300}, {1, 400}});
  made.barrier(1, 2);
  begin_region(made, 2, 20);
  close_region(made.after(7), 2, 20);
  begin_region(made, 3, 30);
  EXPECT(made.released().whole->before->chunks.back(), 2u);
  EXPECT(made.text().find("turns") == std::string::npos, true);
}

TEST(a_task_that_makes_another_after_its_region_is_damage) {
  Program made(2);
  made.create(0, 1, 50).run(1, 2, 50, 5);
  close_region(made.after(5), 1, 1);
  made.create(0, 50, 60);
  begin_region(made, 2, 11);
  EXPECT_PART(why_refused(made), "after its region has ended");
}

TEST(a_chunk_after_which_its_part_has_made_a_task_is_damage) {
  Program made(2);
  made.add(0, RecordKind::Divided, 5, 1, 0, 50).add(0, RecordKind::Chunk, 2).after(5);
  made.create(1, 1, 60).create(0, 1, 61);
  EXPECT_PART(why_refused(made), "none of its loop");
}
