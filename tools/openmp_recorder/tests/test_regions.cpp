// Which regions are written, and the table of them all.
#include "chosen.hpp"
#include "region_table.hpp"
#include "json.hpp"
#include "check.hpp"

namespace {
const char codes[2] = {};

// Regions of these works at the first place, and then at the second.
std::deque<Region> regions_of(const std::vector<int64_t> &first, const std::vector<int64_t> &second) {
  std::deque<Region> out;
  for (const auto *works : {&first, &second})
    for (int64_t work : *works) {
      Region &region = out.emplace_back();
      region.code = &codes[works == &second];
      region.in_tasks = work;
      region.place = out.size();
    }
  return out;
}

int64_t chosen_of(std::deque<Region> regions) {
  std::vector<Region *> all;
  for (Region &region : regions) all.push_back(&region);
  return work_of(*median_of_heaviest(all));
}
}  // namespace

TEST(of_a_place_the_median_is_written) {
  EXPECT(chosen_of(regions_of({50, 10, 30, 900, 20}, {})), 30);
  EXPECT(chosen_of(regions_of({50, 10, 900, 20}, {})), 20);
  EXPECT(median_of_heaviest({}) == nullptr, true);
}

TEST(it_is_of_the_place_with_the_most_work) {
  EXPECT(chosen_of(regions_of({1, 2, 3}, {40, 50, 60})), 50);
  EXPECT(chosen_of(regions_of({40, 50, 60}, {100})), 50);
}

TEST(regions_are_told_in_the_order_of_time) {
  Run run;
  for (uint32_t number : {1, 2, 3}) {
    Region &region = *(run.regions[number] = std::make_unique<Region>());
    region.code = &codes[number == 2];
    region.threads = 4;
    region.asked = 8;
    region.created = 10 * number + number;
    region.chunks = number;  // which are no tasks of the program
    region.cost = 7 * number;
    int64_t begin = 1100 - 100 * int64_t{number};
    region.time = {number, number != 1, begin, number == 1 ? 0 : begin + 50};
    region.text = number == 2 ? 1 : 0;
  }
  run.regions[3]->divided[Divided::Loops].times = 2;
  list_regions(run);
  Places places;
  places.put(&codes[0], "steps.c:9");
  EXPECT(codes_of_regions(run).size(), 2u);
  std::string told;
  print_regions(run, {500, 1500, 80}, places, [&](std::string_view piece) { told += piece; });
  EXPECT(told, "number,text,begin_ns,end_ns,threads,asked,tasks,loops,code_ns,inside,place\n0,0,0,1000,1,0,0,0,80,0,\n"
               "1,0,300,350,4,8,30,2,21,0,steps.c:9\n2,1,400,450,4,8,20,0,14,0,\n"
               "3,0,500,1000,4,8,10,0,7,1,steps.c:9\n");
}

TEST(regions_of_a_place_are_added_up) {
  Run run;
  int64_t begin = 100;
  for (unsigned threads : {4u, 2u, 4u}) {
    Region &region = *(run.regions[threads + static_cast<uint32_t>(begin)] = std::make_unique<Region>());
    region.code = &codes[0];
    region.threads = threads;
    region.asked = 8 - threads;
    region.time = {0, true, begin, begin + 60};  // the next one begins before
    begin += 50;
  }
  list_regions(run);
  Places places;
  places.put(&codes[0], "steps.c:9");
  WholeTime time{100, 400, 0};
  RegionSums sums = sums_of_regions(run, time, places);
  Object line;
  sums.put(line);
  EXPECT(line.end(), "{\"regions\": {\"tasks\": false, "
                     "\"places\": [[\"steps.c:9\", 3, 160, 0, [[2, 60, 6], [4, 120, 4]]]]}}");
  EXPECT(sums.most_threads("steps.c:9"), 4u);
  EXPECT(sums.most_threads("other.c:9"), 0u);
  run.rows[0].is_outermost = false;
  Object none;
  sums_of_regions(run, time, places).put(none);
  EXPECT(none.end(), "{}");
}
