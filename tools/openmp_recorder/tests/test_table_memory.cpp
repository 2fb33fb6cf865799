// Memory of tables, in the process and in a file beside the texts.
#include "table_memory.hpp"

#include <cstring>

#include "check.hpp"
#include "column.hpp"
#include "task_list.hpp"

namespace {
// Within the braces nothing is the process's own, and whatever is resident is too much.
class InAFile {
 public:
  InAFile() { table_memory::stand_beside("/tmp/spanprof_tables", {0, 0}); }
  ~InAFile() { table_memory::stand_beside({}); }
};

void fill(void *memory, char with, std::size_t bytes) { std::memset(memory, with, bytes); }

bool is_full(const void *memory, char of, std::size_t bytes) {
  auto *first = static_cast<const char *>(memory);
  return std::all_of(first, first + bytes, [=](char byte) { return byte == of; });
}

constexpr std::size_t sizes[] = {1, 16, 40, 5000, 70000, 131072, 131073, 3000000};

TEST(memory_keeps_what_is_in_it_while_pages_are_let_go) {
  InAFile file;
  void *all[std::size(sizes)];
  for (std::size_t i = 0; i < std::size(sizes); i++) fill(all[i] = table_memory::get(sizes[i]), 'a' + i, sizes[i]);
  for (int again = 0; again < 2; again++) {
    table_memory::stay_within();
    for (std::size_t i = 0; i < std::size(sizes); i++) EXPECT(is_full(all[i], 'a' + i, sizes[i]), true);
  }
  for (std::size_t i = 0; i < std::size(sizes); i++) table_memory::give_back(all[i], sizes[i]);
}

TEST(what_is_given_back_is_had_again) {
  void *first = table_memory::get(5000), *second = table_memory::get(5000);
  EXPECT(first != second, true);
  table_memory::give_back(first, 5000);
  EXPECT(table_memory::get(5000) == first, true);
  table_memory::give_back(first, 5000);
  table_memory::give_back(second, 5000);
}

TEST(more_room_has_what_was_there) {
  InAFile file;
  for (std::size_t bytes : sizes) {
    void *memory = table_memory::get(bytes);
    fill(memory, 'x', bytes);
    void *more = table_memory::get_more(memory, bytes, bytes, 3 * bytes);
    EXPECT(is_full(more, 'x', bytes), true);
    fill(more, 'y', 3 * bytes);
    table_memory::give_back(more, 3 * bytes);
  }
}

TEST(where_no_file_can_be_made_memory_is_the_process_s_own) {
  table_memory::stand_beside("/no folder/of this name", {0, 0});
  void *memory = table_memory::get(3000000);
  fill(memory, 'z', 3000000);
  table_memory::stay_within();
  EXPECT(is_full(memory, 'z', 3000000), true);
  table_memory::give_back(memory, 3000000);
  table_memory::stand_beside({});
}

TEST(a_column_keeps_its_numbers) {
  InAFile file;
  Column<uint64_t> column;
  for (uint64_t i = 0; i < 300000; i++) column.push_back(i * i);
  column.resize(900000, 7);
  table_memory::stay_within();
  for (uint64_t i = 0; i < 300000; i++) EXPECT(column[i], i * i);
  EXPECT(column.size(), std::size_t{900000});
  EXPECT(column.back(), uint64_t{7});
  Column<uint64_t> other = std::move(column);
  EXPECT(column.empty(), true);
  EXPECT(other[1000], uint64_t{1000000});
  other.clear();
  other.resize(2, 5);
  EXPECT(other[0] + other[1], uint64_t{10});
}

TEST(tasks_in_a_file_keep_their_steps) {
  InAFile file;
  TaskList list;
  for (int64_t i = 0; i < 100000; i++) {
    Task &t = list.emplace_back();
    for (int64_t step = 0; step < i % 9; step++) t.steps.push_back(Step::work(i + step));
  }
  int64_t number = 0;
  for (const Task &t : list) {
    EXPECT(t.steps.size(), static_cast<uint32_t>(number % 9));
    if (number % 9) EXPECT(t.steps[t.steps.size() - 1].cost(), number + number % 9 - 1);
    number++;
  }
  EXPECT(number, int64_t{100000});
}
}  // namespace
