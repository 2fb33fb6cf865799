// The segments of a text by place, made as it is written: of each its kind, its task and its cost, in columns that the
// tools take as they are, so that they need not cut the text. docs/FORMATS.md has the form.
#pragma once
#include <array>
#include <cstdint>
#include <functional>
#include <map>
#include <string>
#include <string_view>
#include <unordered_map>
#include <utility>
#include <vector>

#include "clause_table.hpp"
#include "phases.hpp"
#include "piece.hpp"

class Object;

class SegmentTable {
 public:
  // A segment with which a thread begins in a region, or that comes behind a region's barrier.
  struct Around {
    uint32_t segment, kind;
  };
  struct Share {  // of a place of code that is divided among threads, or each of them has
    uint32_t place;
    uint64_t cost;
  };
  struct OwnPart {  // what a thread does up to the next barrier, or to where another one begins in the text
    uint32_t kind, region, group;
    bool is_behind, has_tasks;  // right behind a barrier
    uint32_t shares = 0;  // how many; those of one part stand behind those of the part before
  };
  struct OwnParts {
    std::vector<OwnPart> all;
    std::vector<Share> shares;
  };
  explicit SegmentTable(std::function<void(std::string_view)> to) : taker(std::move(to)) { open(Nothing, 0); }
  void work(uint64_t more) { cost += more, is_pending = is_pending && !more; }
  void task(std::string_view clauses, std::string_view place);
  void group(std::string_view place);
  void wait(std::string_view place);
  void end();
  std::vector<Around> take_around() { return std::exchange(around, {}); }  // those since they were taken last
  void keep_parts() { keeps_parts = true; }
  OwnParts take_parts();  // the same of those that are over
  bool is_own(uint32_t kind) const { return of_kinds[kind].is_own; }
  uint32_t kind_of(uint32_t place) const { return kinds_of_places[place]; }  // one of them
  std::string_view words_of(uint32_t region) const { return words[region]; }
  // Whether it has room for all kinds. `more` is put into its last line.
  bool finish(const std::function<void(Object &)> &more = nullptr);

 private:
  enum After : uint8_t { Nothing, Creating, Group, Wait };
  struct Code {  // of a task
    bool is_root = true;
    uint32_t place = 0, number = 0;
  };
  struct Block {  // that is open
    bool is_task;
    uint32_t place;
    Code outer;
    uint32_t number = 0, region = 0;  // of a group: the place of the innermost one around its code that has one
  };
  struct OfKind {  // what a segment of it is
    uint32_t place;  // of code that is divided among threads, or each of them has; none of other code
    uint32_t region;
    bool is_root, is_divided;
    bool is_own, is_behind;  // a thread begins with it; it comes behind a region's barrier
  };
  struct Sums {  // of the segments of a kind before those of another one
    uint32_t kind, following;
    uint64_t count = 0, cost = 0, most = 0;
  };

  std::function<void(std::string_view)> taker;
  std::vector<std::string> words{""};  // places by number
  std::vector<bool> are_of_regions{false};
  std::array<uint32_t, 64> recent{};  // of these, by their ends
  std::map<std::string, uint32_t, std::less<>> numbers{{"", 0}};
  std::vector<std::string> kinds;  // in JSON
  std::vector<OfKind> of_kinds;
  std::map<std::array<uint32_t, 3>, uint32_t> places;  // by their words
  std::vector<uint32_t> kinds_of_places;
  Phases phases;
  bool keeps_parts = false;
  OwnParts parts;
  OwnPart part{};  // that is not over
  std::vector<Share> shares;  // of it
  bool has_part = false;
  std::vector<Around> around;
  std::unordered_map<uint64_t, uint32_t> kind_numbers;
  std::array<std::pair<uint64_t, uint32_t>, 64> recent_kinds{};  // of these, by their keys
  std::vector<Sums> sums;
  std::unordered_map<uint64_t, uint32_t> sums_met;
  std::array<std::pair<uint64_t, uint32_t>, 64> recent_sums{};
  ClauseTable written;
  std::vector<Block> blocks;
  std::vector<std::size_t> groups;  // of the blocks
  Code here;
  bool is_pending = false;  // a group has just begun
  uint32_t before = UINT32_MAX;  // clauses of the task that was made last
  uint32_t tasks = 0, begun = 0, closed = 0;
  std::vector<uint16_t> kinds_of;  // segments, as far as they are not handed on
  std::vector<uint32_t> tasks_of, costs;
  uint64_t segments = 0, cost = 0, cost_before = 0;  // of the last one, and the one before
  uint32_t last = 0;  // its kind
  Piece long_costs, own;  // in JSON

  uint32_t word(std::string_view of_place);
  uint32_t region() const;
  uint32_t kind(After after, uint32_t after_place);
  uint32_t open(After after, uint32_t after_place);  // the kind of the new segment
  void describe(After after, uint32_t after_place, uint32_t of_region);  // a kind that is new
  void close(uint32_t following);
  void begin_own(uint32_t number, const OfKind &before_it);
  void add_to_part(const OfKind &of);
  void end_part();
  std::string phases_in_lists();
  void hand_on();
  void name_barrier();
};
