// The table of the segments by place.
#include <cstring>

#include "segment_table.hpp"
#include "program_text.hpp"
#include "check.hpp"
#include "whole.hpp"

namespace {
const std::string of_a_thread = "one of the region's threads";

struct Written {
  std::string words{};
  SegmentTable table{[this](std::string_view piece) { words += piece; }};
  std::string tail() const { return words.substr(words.rfind('\n', words.size() - 2) + 1); }
  template <class Number>
  std::vector<Number> column(std::size_t at, std::size_t count) const {
    std::vector<Number> out(count);
    std::memcpy(out.data(), words.data() + at, count * sizeof(Number));
    return out;
  }
};

TEST(clauses_are_counted_by_their_words_and_place) {
  ClauseTable table;
  for (uint32_t round = 0; round < 2; round++)
    for (uint32_t i = 0; i < 1000; i++)
      for (uint32_t place : {3u, 4u}) {
        uint32_t number = table.number(" depend(in: a" + std::to_string(i) + ")", place, i + place);
        EXPECT(number, 2 * i + place - 3);
        table[number].count++;
      }
  EXPECT(table.size(), 2000u);
  EXPECT(std::string(table.words(table[1999])), " depend(in: a999)");
  EXPECT(table[1999].kind, 1003u);
  EXPECT(table[1999].count, 2u);
}
}  // namespace

TEST(segments_have_a_kind_a_task_and_a_cost) {
  Written out;
  out.table.work(7);
  out.table.task(" depend(inout: x)", "a.c:3"), out.table.work(5), out.table.wait("a.c:5"), out.table.work(6);
  out.table.end(), out.table.group("a.c:8"), out.table.task({}, of_a_thread), out.table.work(1);
  out.table.end(), out.table.end(), out.table.work(uint64_t{1} << 32);
  EXPECT(out.table.finish(), true);
  EXPECT(out.column<uint16_t>(0, 7) == std::vector<uint16_t>({0, 1, 2, 3, 4, 5, 6}), true);
  EXPECT(out.column<uint32_t>(14, 7) == std::vector<uint32_t>({0, 1, 1, 0, 2, 0, 0}), true);
  EXPECT(out.column<uint32_t>(42, 7) == std::vector<uint32_t>({7, 5, 6, 0, 1, 0, 0}), true);
  EXPECT(
      out.tail(),
      "{\"segments\": 7, \"kinds\": [[true, \"\", \"\", \"\", \"\"], [false, \"a.c:3\", \"\", \"\", \"\"], "
      "[false, \"a.c:3\", \"taskwait\", \"a.c:5\", \"\"], [true, \"\", \"creating a task\", \"a.c:3\", \"\"], "
      "[false, \"one of the region's threads\", \"\", \"\", \"a.c:8\"], "
      "[true, \"\", \"creating a task\", \"one of the region's threads\", \"a.c:8\"], "
      "[true, \"\", \"taskgroup\", \"barrier of the region at a.c:8\", \"a.c:8\"]], "
      "\"long\": [6,4294967296], "
      "\"sums\": [[0, 1, 1, 7, 7], [1, 2, 1, 5, 5], [2, 3, 1, 6, 6], [3, 4, 1, 0, 0], [4, 5, 1, 1, 1], [5, 6, 1, 0, 0], "
      "[6, 0, 1, 4294967296, 4294967296]], \"own\": [4,1], \"phases\": [[4, 1, 1, 0, 0, 1, 0]], \"clauses\": [[1, \" depend(inout: x)\", 1, 0]]}\n");
}

TEST(a_group_of_a_loop_is_no_barrier) {
  Written out;
  out.table.group("the loop at a.c:2"), out.table.task({}, "turns of the loop at a.c:2"), out.table.end();
  out.table.group("a.c:5"), out.table.work(3), out.table.task({}, of_a_thread);
  out.table.end(), out.table.end(), out.table.end();
  out.table.finish();
  EXPECT_PART(out.tail(), "[false, \"one of the region's threads\", \"\", \"\", \"a.c:5\"]");
  EXPECT_PART(out.tail(), "[true, \"\", \"taskgroup\", \"a.c:5\", \"\"]");
  EXPECT_PART(out.tail(), "[true, \"\", \"taskgroup\", \"the loop at a.c:2\", \"\"]");
}

TEST(columns_come_in_blocks) {
  Written out;
  const unsigned count = 70000, first = 1 << 16;
  for (unsigned i = 1; i < count; i++) out.table.work(i), out.table.wait("a.c:1");
  EXPECT(out.words.size(), first * 10u);
  out.table.finish();
  EXPECT(out.column<uint32_t>(first * 6, 3) == std::vector<uint32_t>({1, 2, 3}), true);
  EXPECT(out.column<uint32_t>(first * 10 + (count - first) * 6, 1)[0], first + 1);
}

TEST(more_kinds_than_a_column_takes_are_told) {
  Written out;
  for (unsigned i = 0; i < 1 << 16; i++) out.table.wait("a.c:" + std::to_string(i));
  EXPECT(out.table.finish(), false);
}

namespace {
// A phase of a region, whose threads have so much.
void phase(Written &out, const std::vector<uint64_t> &costs, std::string_view place = "a.c:5") {
  out.table.group(place);
  for (uint64_t cost : costs) out.table.task({}, of_a_thread), out.table.work(cost), out.table.end();
  out.table.end();
}

std::string phases_of(Written &out) {
  out.table.finish();
  std::string tail = out.tail();
  size_t first = tail.find("\"phases\": ");
  return tail.substr(first, tail.find(", \"clauses\"") - first);
}
}  // namespace

// Of each place a kind, the largest pieces, those of phases that one thread ran, what others had less, and of that what
// is a turn; phases, and those right behind another one.
TEST(phases_are_added_up) {
  Written out;
  phase(out, {80, 1}), out.table.work(3), phase(out, {20, 10, 10, 10}), phase(out, {8, 8});
  EXPECT(phases_of(out), "\"phases\": [[1, 108, 80, 109, 109, 3, 1]]");
}

TEST(divided_code_is_uneven_phase_by_phase) {
  Written out;
  for (int time = 0; time < 2; time++) {
    out.table.group("a.c:2");
    for (const std::vector<uint64_t> &turns : {std::vector<uint64_t>{5, 3}, {6}, {}}) {
      out.table.task({}, of_a_thread), out.table.group("the loop at a.c:3");
      for (uint64_t turn : turns)
        out.table.task({}, "turns of the loop at a.c:3"), out.table.work(turn), out.table.end();
      out.table.end(), out.table.end();
    }
    out.table.end(), out.table.work(1);
  }
  EXPECT(phases_of(out), "\"phases\": [[1, 0, 0, 0, 0, 2, 0], [2, 0, 0, 20, 0, 0, 0]]");
}

TEST(regions_inside_others_have_phases_of_their_own) {
  Written out;
  out.table.group("a.c:2"), out.table.task({}, of_a_thread), out.table.work(4);
  phase(out, {9, 2}, "a.c:7");
  out.table.end(), out.table.task({}, of_a_thread), out.table.work(1), out.table.end(), out.table.end();
  EXPECT(phases_of(out), "\"phases\": [[1, 4, 0, 3, 0, 2, 0], [2, 9, 0, 7, 7, 1, 0]]");
}

TEST(a_text_is_written_with_its_segments) {
  Program made;
  loop(made.after(4), 0, 4, {{3, 6 * us}, {1, 5 * us}});
  end_region(made);
  made.whole();
  Written out;
  print_program(
      *made.found.whole, {1, true, true}, Places(), [](std::string_view) {}, &out.table);
  EXPECT(out.table.finish(), true);
  EXPECT_PART(out.tail(), "{\"segments\": 13, ");
  EXPECT(out.column<uint32_t>(26 + 52, 5) == std::vector<uint32_t>({100, 4, 2000, 0, 2000}), true);
}
