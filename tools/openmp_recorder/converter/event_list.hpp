// Events of segments in the order in which they came, in blocks: none is copied when more come. They keep their numbers
// where the first ones are forgotten.
#pragma once
#include <cstddef>
#include <cstdint>
#include <utility>
#include <vector>

#include "column.hpp"

struct Task;

struct Event {
  Task *task;
  int64_t at;  // the wall clock
  unsigned segment;
  uint16_t worker;
  bool start;
  bool taken_back = false;
};

class EventList {
  static constexpr std::size_t bits = 12, of_a_block = std::size_t{1} << bits, at_once = 512;

 public:
  template <class List, class Of>
  class Place {
   public:
    Place(List *of, std::size_t number) : list(of), at(number) {}
    Of &operator*() const { return (*list)[at]; }
    Place &operator++() {
      if (++at % at_once == 0) table_memory::stay_within();
      return *this;
    }
    bool operator!=(const Place &other) const { return at != other.at; }

   private:
    List *list;
    std::size_t at;
  };

  std::size_t size() const {
    return blocks.empty() ? first : (gone + blocks.size() - 1) * of_a_block + blocks.back().size();
  }
  bool empty() const { return first == size(); }
  Event &operator[](std::size_t at) { return blocks[(at >> bits) - gone][at % of_a_block]; }
  const Event &operator[](std::size_t at) const { return blocks[(at >> bits) - gone][at % of_a_block]; }
  const Event &back() const { return blocks.back().back(); }
  std::size_t forgotten() const { return first; }
  void forget(std::size_t end) {  // those before it
    auto whole_blocks = (end >> bits) - gone;
    blocks.erase(blocks.begin(), blocks.begin() + static_cast<std::ptrdiff_t>(whole_blocks));
    gone += whole_blocks;
    first = end;
  }
  Place<EventList, Event> begin() { return {this, first}; }
  Place<EventList, Event> end() { return {this, size()}; }
  Place<const EventList, const Event> begin() const { return {this, first}; }
  Place<const EventList, const Event> end() const { return {this, size()}; }

  void push_back(const Event &event) {
    if (blocks.empty() || blocks.back().size() == of_a_block) add_block();
    blocks.back().push_back(event);
  }

 private:
  std::vector<Column<Event>> blocks;  // none of them empty; all but the last are full
  std::size_t gone = 0, first = 0;  // blocks before them; the first event that is not forgotten

  void add_block() {
    bool is_first = blocks.empty();  // many regions have few
    blocks.emplace_back();
    if (!is_first) blocks.back().reserve(of_a_block);
  }
};
