#include <vector>

#include "gomp/items.hpp"
#include "gomp/turns.hpp"
#include "check.hpp"

namespace {
int variables[8];
void *at(int number) { return &variables[number]; }
void *count(uintptr_t number) { return reinterpret_cast<void *>(number); }

std::vector<int> types_of(std::vector<void *> depend) {
  std::vector<int> out;
  for (const ompt_dependence_t &one : items_of(depend.data())) out.push_back(one.dependence_type);
  return out;
}

TEST(turns_of_a_loop) {
  EXPECT(turns_between(0L, 10L, 3L), uint64_t{4});
  EXPECT(turns_between(10L, 0L, -5L), uint64_t{2});
  EXPECT(turns_between(0L, 0L, 1L), uint64_t{0});
  EXPECT(turns_between(5L, 0L, 1L), uint64_t{0});
  EXPECT(turns_between(INT64_MIN, INT64_MAX, 1L), UINT64_MAX);
}

TEST(turns_of_an_unsigned_loop) {
  uint64_t down = -uint64_t{3};
  EXPECT(turns_between(true, 0, 10, 3), uint64_t{4});
  EXPECT(turns_between(false, 10, 0, down), uint64_t{4});
  EXPECT(turns_between(true, 3, 3, 1), uint64_t{0});
  EXPECT(turns_between(false, 0, 3, down), uint64_t{0});
}

TEST(items_of_the_short_form) {
  std::vector<void *> depend{count(3), count(1), at(0), at(1), at(2)};
  EXPECT(types_of(depend) ==
             (std::vector<int>{ompt_dependence_type_inout, ompt_dependence_type_in, ompt_dependence_type_in}),
         true);
  EXPECT(items_of(depend.data())[2].variable.ptr == at(2), true);
}

TEST(items_of_the_long_form) {
  void *object[2] = {at(4), count(5)}, *reading[2] = {at(5), count(1)};
  std::vector<void *> depend{count(0), count(5), count(1), count(1), count(1), at(0), at(1), at(2), object, reading};
  EXPECT(types_of(depend) ==
             (std::vector<int>{ompt_dependence_type_inout, ompt_dependence_type_mutexinoutset, ompt_dependence_type_in,
                               ompt_dependence_type_inoutset, ompt_dependence_type_in}),
         true);
  EXPECT(items_of(depend.data())[3].variable.ptr == at(4), true);
}
}  // namespace
