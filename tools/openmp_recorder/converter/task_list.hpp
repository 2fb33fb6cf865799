// Tasks in the order in which they are made, in blocks: no task moves while it is there, a list without tasks takes no
// memory, and whole blocks can be taken out.
#pragma once
#include <algorithm>
#include <cstddef>
#include <iterator>
#include <utility>
#include <vector>

#include "table_memory.hpp"
#include "task.hpp"

class TaskList {
  static constexpr uint32_t least_room = 2, most_room = 512;  // each region begins a block, and most have few tasks
  struct Block {
    Task *first;
    uint32_t count, room;
  };

 public:
  template <class Of>
  class Place {
   public:
    using iterator_category = std::bidirectional_iterator_tag;
    using value_type = Of;
    using difference_type = std::ptrdiff_t;
    using pointer = Of *;
    using reference = Of &;
    Place(const Block *block, uint32_t inside) : in(block), at(inside) {}
    Of &operator*() const { return in->first[at]; }
    Of *operator->() const { return in->first + at; }
    Place &operator++() {
      if (++at == in->count) leave_block(), in++, at = 0;
      return *this;
    }
    Place &operator--() {
      if (!at) in--, at = in->count, leave_block();
      at--;
      return *this;
    }
    bool operator==(const Place &other) const { return in == other.in && at == other.at; }
    bool operator!=(const Place &other) const { return !(*this == other); }

   private:
    const Block *in;
    uint32_t at;
    void leave_block() const {
      if (in->room == most_room) table_memory::stay_within();
    }
  };

  TaskList() {}
  TaskList(TaskList &&other) noexcept { *this = std::move(other); }
  ~TaskList() { clear(); }
  TaskList &operator=(TaskList &&other) noexcept;

  Place<Task> begin() { return {blocks.data(), 0}; }
  Place<Task> end() { return {blocks.data() + blocks.size(), 0}; }
  Place<const Task> begin() const { return {blocks.data(), 0}; }
  Place<const Task> end() const { return {blocks.data() + blocks.size(), 0}; }
  auto rbegin() { return std::reverse_iterator(end()); }
  auto rend() { return std::reverse_iterator(begin()); }
  Task &back() { return *std::prev(end()); }
  std::size_t size() const { return many; }

  Task &emplace_back();
  Task &emplace_front();
  void clear();
  std::size_t begin_block();  // what is made next lies in a block of its own; how many there are before it
  TaskList take(std::size_t first, std::size_t end);  // these blocks
  template <class Which>
  bool all_of_block(std::size_t number, const Which &which) const {
    const Block &block = blocks[number];
    return std::all_of(block.first, block.first + block.count, which);
  }

 private:
  std::vector<Block> blocks;  // none of them empty
  std::size_t many = 0;
  bool apart = false;
  static Block new_block(uint32_t room);
};
