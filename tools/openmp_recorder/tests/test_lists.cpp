// The lists and tables that tasks are kept in, and the pieces that texts are put together in.
#include "locations.hpp"
#include "piece.hpp"
#include "run.hpp"
#include "short_list.hpp"
#include "task_list.hpp"
#include "task_numbers.hpp"
#include "check.hpp"

namespace {
ShortList<Step> steps_of(int64_t count) {
  ShortList<Step> list;
  for (int64_t i = 0; i < count; i++) list.push_back(Step::work(i));
  return list;
}

TEST(a_short_list_keeps_what_is_put_into_it) {
  for (int64_t count : {0, 1, 2, 5, 100}) {
    ShortList<Step> list = steps_of(count);
    EXPECT(list.size(), static_cast<uint32_t>(count));
    int64_t next = 0;
    for (const Step &step : list) EXPECT(step.cost(), next++);
    EXPECT(next, count);
    if (count) EXPECT(list.back().cost(), count - 1);
  }
}

TEST(a_copy_of_a_short_list_is_its_own) {
  for (int64_t count : {0, 1, 7}) {
    ShortList<Step> list = steps_of(count), copy = list;
    list.push_back(Step::work(99));
    EXPECT(copy.size(), static_cast<uint32_t>(count));
    ShortList<Step> moved = std::move(list);
    EXPECT(moved.size(), static_cast<uint32_t>(count) + 1);
    EXPECT(moved.back().cost(), 99);
    EXPECT(list.empty(), true);
    list.push_back(Step::work(3));
    moved = list;
    EXPECT(moved.size(), 1u);
    EXPECT(moved[0].cost(), 3);
  }
}

TEST(locations_are_numbered_as_they_are_first_named) {
  Locations locations;
  const uint32_t count = 5000;
  for (uint64_t distance : {uint64_t{1}, uint64_t{8}, uint64_t{4096}, uint64_t{1} << 32}) {
    uint32_t before = locations.size();
    uint64_t from = distance << 20;
    for (uint32_t i = 0; i < count; i++) EXPECT(locations.number(from + i * distance), before + i);
    for (uint32_t i = 0; i < count; i++) EXPECT(locations.number(from + i * distance), before + i);
  }
  EXPECT(locations.size(), 4 * count);
}

TEST(a_piece_holds_words_numbers_and_blanks) {
  Piece piece;
  std::string expected;
  for (uint64_t i = 0; i < 1000; i++) {
    piece.put("work ");
    piece.number(i * i * i);
    piece.blanks(i % 7);
    piece.put(std::string_view("of a place"));
    expected += "work " + std::to_string(i * i * i) + std::string(i % 7, ' ') + "of a place";
  }
  piece.number(UINT64_MAX);
  EXPECT(std::string(piece.words()), expected + "18446744073709551615");
  piece.clear();
  EXPECT(piece.words().empty(), true);
}

TEST(tasks_stay_where_they_are_in_the_order_in_which_they_were_made) {
  TaskList list;
  std::vector<Task *> made;
  for (int i = 0; i < 3000; i++) made.push_back(&list.emplace_back());
  made.insert(made.begin(), &list.emplace_front());
  EXPECT(list.size(), made.size());
  EXPECT(&list.back() == made.back(), true);
  size_t at = 0;
  for (Task &t : list) EXPECT(&t == made[at++], true);
  EXPECT(at, made.size());
  for (auto t = list.rbegin(); t != list.rend(); ++t) EXPECT(&*t == made[--at], true);
  EXPECT(at, 0u);
}

TEST(a_list_without_tasks_has_no_place) {
  TaskList list;
  EXPECT(list.begin() == list.end(), true);
  EXPECT(list.rbegin() == list.rend(), true);
  list.emplace_back();
  list.clear();
  EXPECT(list.size(), 0u);
  EXPECT(list.begin() == list.end(), true);
}

TEST(blocks_of_tasks_are_taken_out_whole) {
  TaskList list;
  Task *root = &list.emplace_back();
  EXPECT(list.begin_block(), 1u);
  Task *first = nullptr;
  for (int i = 0; i < 100; i++) first = first ? (list.emplace_back(), first) : &list.emplace_back();
  size_t end = list.begin_block();
  Task *after = &list.emplace_back();
  TaskList taken = list.take(1, end);
  EXPECT(taken.size(), 100u);
  EXPECT(&*taken.begin() == first, true);
  EXPECT(list.size(), 2u);
  EXPECT(&*list.begin() == root, true);
  EXPECT(&list.back() == after, true);
}

TEST(numbers_of_tasks_that_are_forgotten_take_no_memory) {
  TaskNumbers numbers;
  Task one, other;
  numbers.put(5, &one);
  numbers.put(70000, &other);
  EXPECT(numbers.find(5) == &one, true);
  EXPECT(numbers.find(70000) == &other, true);
  EXPECT(numbers.find(6) == nullptr, true);
  EXPECT(numbers.find(4000000000) == nullptr, true);
  for (Task *t : {&other, static_cast<Task *>(nullptr)}) {
    numbers.put(5, t);
    EXPECT(numbers.find(5) == t, true);
  }
  numbers.put(5, nullptr);
  EXPECT(numbers.find(5) == nullptr, true);
  EXPECT(numbers.find(70000) == &other, true);
}
}  // namespace
