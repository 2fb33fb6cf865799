// The program's regions in the order of time, those without tasks too: NAME.regions.
#pragma once
#include <map>
#include <string>
#include <string_view>
#include <vector>

#include "run.hpp"
#include "source.hpp"
#include "program_text.hpp"

class Object;

struct WholeTime {
  int64_t start, end;  // of the program, on the wall clock
  int64_t outside;  // what it cost outside of regions
};

// Of the regions inside no other, by place.
class RegionSums {
 public:
  void add(const RegionRow &row, const WholeTime &time, const std::string &place);
  unsigned most_threads(std::string_view place) const;  // 0 where there are none
  void put(Object &line) const;  // where none is inside another one

 private:
  struct Team {  // of those with so many threads
    int64_t elapsed = 0;
    unsigned asked = 0;
  };
  struct OfPlace {
    size_t number;  // in the order of time
    uint64_t times = 0;
    int64_t elapsed = 0, covered = 0;  // where several run at once that counts once; until then
    int64_t code = 0;  // of all threads
    std::map<unsigned, Team> teams{};
  };
  std::map<std::string, OfPlace, std::less<>> by_place;
  bool is_simple = true, has_tasks = false;
};

RegionSums sums_of_regions(const Run &run, const WholeTime &time, const Places &places);
std::vector<const void *> codes_of_regions(const Run &run);
void print_regions(const Run &run, const WholeTime &time, const Places &places, const Taker &taker);
