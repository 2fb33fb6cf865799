// What threads had of their regions' code between two barriers, a phase, added up by place as the text is written: how
// unevenly it was divided among them, and how much of it one thread ran alone.
#pragma once
#include <cstdint>
#include <vector>

class Phases {
 public:
  struct Sums {  // of a place
    bool is_own;  // code with which threads begin
    uint32_t kind;  // of its segments, the first
    uint64_t longest = 0;  // the largest pieces, one of each phase
    uint64_t alone = 0;  // of these, in phases that one thread ran
    uint64_t uneven = 0;  // what all would cost more that had as much as the largest
    uint64_t by_a_turn = 0;  // of this, where they had a turn or none, and some of them one more
    uint64_t phases = 0, further = 0;  // of own code: those that begin with it, and that follow one of the region
  };
  uint32_t add_place(bool is_own, uint32_t kind);
  // A part of a group: all code that comes next is of it, up to the next one. Whether it comes right behind a barrier.
  void begin_part(uint32_t group, uint32_t place, uint32_t region, bool is_behind);
  void add(uint32_t place, uint64_t cost) {
    if (open.empty()) return;
    if (!is_met[place]) is_met[place] = true, met.push_back(place);
    had[place] += cost;
  }
  void end_group(uint32_t group);
  const std::vector<Sums> &finish();

 private:
  struct Share {
    uint32_t place;
    uint64_t cost;
  };
  struct Group {
    uint32_t number = 0;
    uint64_t parts = 0;
    bool has_ended = false;
    std::vector<Share> shares;
  };
  std::vector<Sums> sums;  // by place
  std::vector<Group> open;  // that may get more, the innermost last
  std::vector<Group> unused;  // whose memory others take
  uint32_t current = 0, region_before = 0;  // the group of the part that began last; the region of its phase
  std::vector<uint64_t> had;  // by place, of that part
  std::vector<bool> is_met;
  std::vector<uint32_t> met;

  Group *find(uint32_t group);
  void end_part();
  void close(Group &group);
  void add_up(Group &group);
  void add_up(uint64_t parts, const Share *first, const Share *end);
};
