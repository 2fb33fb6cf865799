// What is added up of the times of regions: how long threads take to begin, and what they wait for at barriers.
#include "barriers.hpp"
#include "delays.hpp"
#include "json.hpp"
#include "segment_table.hpp"
#include "check.hpp"
#include "whole.hpp"

namespace {
Places places_of_regions() {
  Places places;
  places.put(reinterpret_cast<const void *>(uint64_t{77}), "a.c:7");
  return places;
}

// A region of two threads, which begin so much later than the first of them.
void begin_region(Made &made, uint32_t region, int64_t later) {
  made.add(0, RecordKind::ParallelBegin, 0, region, 0, 77);
  made.add(0, RecordKind::ImplicitBegin, 10 * region, region, 0, 2);
  made.after(later).add(1, RecordKind::ImplicitBegin, 10 * region + 1, region, 0, 2);
}

void meet_barrier(Made &made, uint32_t region, const std::vector<int64_t> &later, bool goes_on) {
  for (unsigned i = 0; i < 2; i++) made.after(later[i]).barrier(i, 10 * region + i);
  for (unsigned i = 0; i < 2 && goes_on; i++)
    made.add(i, RecordKind::SyncEnd, 10 * region + i, 0, ompt_sync_region_barrier_implementation);
}

// The end of the table's last line, with what is added up.
std::string sums_of(WholeProgram &whole, unsigned team) {
  std::string words;
  SegmentTable table([&](std::string_view piece) { words += piece; });
  Events events("/tmp/spanprof_waiting");
  Delays delays;
  Barriers barriers(table, [&](std::string_view place) { return place == "a.c:7" ? team : 0; });
  Places places = places_of_regions();
  auto take = [&](Region &part, uint32_t first, uint32_t end) {
    events.take(whole, part, first, end);
    auto around = table.take_around();
    delays.take(whole, part, events, around);
    barriers.take(events, around);
  };
  print_program(
      whole, {1, true, true}, places, [](std::string_view) {}, &table, take);
  EXPECT(events.are_whole(), true);
  table.finish([&](Object &line) { delays.put(events, line), barriers.put(line); });
  size_t first = words.rfind("\"delays\"");
  return words.substr(first, words.rfind(", \"clauses\"") - first);
}
}  // namespace

// The second thread began 70 us after the first, of which 50 may be the runtime's; and the root went on at once.
TEST(threads_that_begin_later_are_delayed) {
  Program made(2);
  end_region(made, 2);
  made.after(30);
  begin_region(made, 2, 70 * us);
  meet_barrier(made.after(9), 2, {5, 4}, false);
  made.add(0, RecordKind::ParallelEnd, 0, 2).after(8);
  std::string told = sums_of(*made.whole().whole, 2);
  EXPECT_PART(told, ", 70000, 50000]");
}

// Each thread has 90 and 10: without the barrier in the middle none would wait.
TEST(waits_at_barriers_are_added_up) {
  Program made(2);
  end_region(made, 2);
  made.after(30);
  begin_region(made, 2, 0);
  meet_barrier(made, 2, {10, 80}, true);
  made.after(10).barrier(1, 21).after(80).barrier(0, 20);
  made.add(0, RecordKind::ParallelEnd, 0, 2).after(8);
  std::string all = sums_of(*made.whole().whole, 2), none = sums_of(*made.whole().whole, 3);
  EXPECT_PART(all, ", 1, 160, [[");
  EXPECT_PART(all, ", 160]], [[");
  EXPECT_PART(all, ", 80]]]]");
  EXPECT_PART(none, ", 1, 0, [], []]]");
}
