// What places are called where several paths of calls led to a creation.
#include <cstdint>

#include "call_paths.hpp"
#include "check.hpp"
#include "made.hpp"

namespace {
const void *at(uint64_t address) { return reinterpret_cast<const void *>(address); }

Frame in(const std::string &function, const std::string &place) { return {function, place}; }
Frame of_task(const std::string &function, const std::string &place) { return {function, place, true}; }

// Addresses with the functions that they are in.
class Known {
 public:
  Known &call(uint64_t address, const std::vector<Frame> &frames) {
    places.put(at(address), frames[0].at);
    places.put_calls(at(address), frames);
    return *this;
  }
  CallPaths paths(const std::vector<std::vector<uint64_t>> &all) const {
    std::vector<Calls> calls;
    for (const auto &path : all) {
      Calls &one = calls.emplace_back();
      for (uint64_t address : path) one.push_back(at(address));
    }
    return {calls, places};
  }
  std::string name(const CallPaths &paths, const void *place) const {
    Places named = places;
    paths.name_in(named);
    return named.at(place);
  }

 private:
  Places places;
};

// `spawn` makes tasks for `solve` and `relax`, which the region's code calls.
Known blocks() {
  Known known;
  known.call(1, {in("spawn", "b.c:6")}).call(2, {in("solve", "b.c:10")}).call(3, {in("relax", "b.c:20")});
  return known.call(4, {of_task("main", "b.c:40")}).call(5, {of_task("main", "b.c:50")});
}
}  // namespace

TEST(a_place_with_one_path_has_no_callers) {
  Known known = blocks();
  CallPaths paths = known.paths({{1, 2, 4}});
  EXPECT(known.name(paths, paths.place(1, nullptr)), "b.c:6");
}

TEST(paths_differ_by_their_first_callers_that_differ) {
  Known known = blocks();
  CallPaths paths = known.paths({{1, 2, 4}, {1, 3, 4}, {1, 4}});
  const void *first = paths.place(1, nullptr), *second = paths.place(2, nullptr), *third = paths.place(3, nullptr);
  EXPECT(known.name(paths, first), "b.c:6 called from solve at b.c:10");
  EXPECT(known.name(paths, second), "b.c:6 called from relax at b.c:20");
  EXPECT(known.name(paths, third), "b.c:6 called from main at b.c:40");
}

TEST(callers_that_all_paths_have_are_left_out) {
  Known known = blocks();
  CallPaths paths = known.paths({{1, 2, 4}, {1, 2, 5}});
  const void *first = paths.place(1, nullptr), *second = paths.place(2, nullptr);
  EXPECT(known.name(paths, first), "b.c:6 called from main at b.c:40");
  EXPECT(known.name(paths, second), "b.c:6 called from main at b.c:50");
}

TEST(two_callers_are_told_where_one_does_not_do) {
  Known known = blocks();
  CallPaths paths = known.paths({{1, 2, 4}, {1, 2, 5}, {1, 3, 4}});
  const void *first = paths.place(1, nullptr), *third = paths.place(3, nullptr);
  paths.place(2, nullptr);
  EXPECT(known.name(paths, first), "b.c:6 called from solve at b.c:10 called from main at b.c:40");
  EXPECT(known.name(paths, third), "b.c:6 called from relax at b.c:20");
}

TEST(at_most_three_callers_are_told) {
  Known known;
  std::vector<std::vector<uint64_t>> all;
  known.call(1, {in("spawn", "b.c:6")});
  for (uint64_t level = 1; level <= 4; level++)
    for (uint64_t which : {0, 1})
      known.call(10 * level + which, {in("f" + std::to_string(level), "b.c:" + std::to_string(10 * level + which))});
  for (uint64_t bits = 0; bits < 16; bits++)
    all.push_back({1, 10 + (bits & 1), 20 + (bits >> 1 & 1), 30 + (bits >> 2 & 1), 40 + (bits >> 3)});
  CallPaths paths = known.paths(all);
  for (uint64_t path = 1; path <= all.size(); path++) paths.place(path, nullptr);
  const std::string three = "b.c:6 called from f1 at b.c:11 called from f2 at b.c:21 called from f3 at b.c:31";
  EXPECT(known.name(paths, paths.place(8, nullptr)), three);
  EXPECT(known.name(paths, paths.place(16, nullptr)), three);
}

TEST(an_inlined_function_has_callers_too) {
  Known known;
  known.call(1, {in("spawn", "b.c:6"), in("solve", "b.c:10")})
      .call(2, {in("spawn", "b.c:6"), of_task("main", "b.c:40")});
  CallPaths paths = known.paths({{1}, {2}});
  const void *first = paths.place(1, nullptr), *second = paths.place(2, nullptr);
  EXPECT(known.name(paths, first), "b.c:6 called from solve at b.c:10");
  EXPECT(known.name(paths, second), "b.c:6 called from main at b.c:40");
}

TEST(what_is_around_the_code_of_a_task_is_another_ones) {
  Known known;
  known.call(1, {in("spawn", "b.c:6")}).call(2, {of_task("", "b.c:9"), in("solve", "b.c:8")});
  known.call(3, {of_task("", "b.c:9"), in("solve", "b.c:18")});
  CallPaths paths = known.paths({{1, 2}, {1, 3}});
  const void *first = paths.place(1, nullptr), *second = paths.place(2, nullptr);
  EXPECT(known.name(paths, first), "b.c:6");
  EXPECT(known.name(paths, second), "b.c:6");
}

// `fib` makes tasks that call it; the region's code calls it at two lines.
TEST(a_recursion_by_tasks_has_the_path_that_led_into_it) {
  Known known;
  known.call(1, {in("fib", "f.c:3")}).call(2, {of_task("", "f.c:4")}).call(3, {of_task("main", "f.c:30")});
  known.call(4, {of_task("main", "f.c:40")});
  CallPaths paths = known.paths({{1, 3}, {1, 2}, {1, 4}});
  const void *root = paths.place(1, nullptr), *child = paths.place(2, root), *grandchild = paths.place(2, child);
  EXPECT(child == root, true);
  EXPECT(grandchild == root, true);
  EXPECT(known.name(paths, grandchild), "f.c:3");
  const void *other = paths.place(2, paths.place(3, nullptr));
  EXPECT(known.name(paths, grandchild), "f.c:3 called from main at f.c:30");
  EXPECT(known.name(paths, other), "f.c:3 called from main at f.c:40");
}

TEST(a_task_in_the_code_of_a_task_has_the_path_of_that) {
  Known known;
  known.call(1, {in("spawn", "b.c:6")}).call(2, {of_task("", "b.c:7")}).call(3, {of_task("main", "b.c:30")});
  known.call(4, {of_task("main", "b.c:40")});
  CallPaths paths = known.paths({{1, 3}, {1, 4}, {2}});
  const void *first = paths.place(1, nullptr), *inner = paths.place(3, first);
  EXPECT(known.name(paths, inner), "b.c:7");
  paths.place(3, paths.place(2, nullptr));
  EXPECT(known.name(paths, inner), "b.c:7 called from main at b.c:30");
}

TEST(a_recursion_by_calls_has_its_own_call) {
  Known known;
  known.call(1, {in("walk", "w.c:3")}).call(2, {in("walk", "w.c:5")}).call(3, {of_task("main", "w.c:30")});
  CallPaths paths = known.paths({{1, 2}, {1, 3}});
  const void *inside = paths.place(1, nullptr), *first = paths.place(2, nullptr);
  EXPECT(known.name(paths, inside), "w.c:3 called from walk at w.c:5");
  EXPECT(known.name(paths, first), "w.c:3 called from main at w.c:30");
}

TEST(places_of_one_name_keep_their_calls) {
  Known known;
  known.call(1, {in("spawn", "b.c:6")}).call(2, {in("spawn", "b.c:6")}).call(3, {of_task("main", "b.c:30")});
  CallPaths paths = known.paths({{1, 3}, {2, 3}});
  const void *first = paths.place(1, nullptr), *second = paths.place(2, nullptr);
  EXPECT(first == second, false);
  EXPECT(known.name(paths, first), "b.c:6");
  EXPECT(known.name(paths, second), "b.c:6");
  Places named;
  paths.name_in(named);
  EXPECT(named.call_at(second) == at(2), true);
  EXPECT(named.call_at(at(2)) == at(2), true);
}

TEST(tasks_have_the_places_of_their_paths) {
  Known known = blocks();
  CallPaths paths = known.paths({{1, 2, 4}, {1, 3, 4}});
  HowToRead how;
  how.paths = &paths;
  Made made;
  made.create(0, 1, 2, 0, 1).path(0, 1).create(0, 1, 3, 0, 1).path(0, 2).create(0, 1, 4, 0, 1);
  Run run = made.run(0, 1, 2, 5).run(0, 1, 3, 5).run(0, 1, 4, 5).barrier(0, 1).read({}, how);
  std::vector<std::string> names;
  for (const Task &t : only_region(run).tasks)
    if (t.parent) names.push_back(known.name(paths, t.code));
  EXPECT(names.size(), 3u);
  EXPECT(names[0], "b.c:6 called from solve at b.c:10");
  EXPECT(names[1], "b.c:6 called from relax at b.c:20");
  EXPECT(names[2], "b.c:6");  // none was recorded
}
