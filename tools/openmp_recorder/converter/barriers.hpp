// How threads of a region wait for each other at barriers between its loops, added up as the text is written: without
// these they would wait less where each has as much to do in all. The tools say when they are the cause of waits.
#pragma once
#include <cstdint>
#include <deque>
#include <functional>
#include <map>
#include <string_view>
#include <vector>

#include "events.hpp"
#include "segment_table.hpp"

class Barriers {
 public:
  using Team = std::function<unsigned(std::string_view place)>;  // of the regions there, or 0 where none is known
  Barriers(SegmentTable &of, Team of_regions) : table(of), team_of(std::move(of_regions)) { table.keep_parts(); }
  void take(const Events &events, const std::vector<SegmentTable::Around> &around);  // a part that is written
  void put(Object &line);  // after the last one

 private:
  using Place = uint32_t;
  struct Wait {
    Place place;
    int64_t time;
  };
  struct Cost {
    unsigned thread;
    int64_t cost;
  };
  using Costs = std::vector<Cost>;  // of each thread
  struct Ran {  // by a thread, in a phase
    bool has_tasks;
    size_t first, end;  // of its shares
  };
  struct Phase {
    Place place = no_place;  // with most of its code
    Costs costs;
  };
  struct Sums {  // of a region
    uint32_t kind = 0;
    unsigned team = 0;
    uint64_t times = 0;
    int64_t less = 0;
    std::vector<Wait> waits, behind;  // by place; at barriers
    // the phases since the last one that one thread ran
    Costs costs;
    int64_t waited = 0;
    std::vector<Wait> last;
  };
  static constexpr Place no_place = UINT32_MAX;
  SegmentTable &table;
  Team team_of;
  std::deque<unsigned> threads;  // of parts that are begun and not taken
  std::map<uint32_t, Sums> sums;  // by region
  uint32_t region = 0, group = 0;  // of the phase that is gathered
  bool is_begun = false, is_further = false;
  std::vector<Ran> ran;
  std::vector<SegmentTable::Share> shares;  // of what ran
  Phase phase;  // that has been gathered
  std::vector<Wait> places;  // of it

  Sums &sums_of(uint32_t of_region, uint32_t kind);
  void take_parts(const SegmentTable::OwnParts &parts);
  void add(const SegmentTable::OwnPart &part, const SegmentTable::Share *first, unsigned thread);
  void end_phase();
  bool is_whole(unsigned team) const;
  void gather();
  void follow(Sums &all);
  static int64_t waits_of(const Costs &costs);
  static bool is_alone(const Costs &costs);
  static void add_to(Costs &all, const Cost &one);
  static void add_to(std::vector<Wait> &all, Place place, int64_t time);
  static void end_chain(Sums &all);
};
