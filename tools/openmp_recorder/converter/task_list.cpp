#include "task_list.hpp"

#include <memory>

TaskList::Block TaskList::new_block(uint32_t room) {
  return {static_cast<Task *>(table_memory::get(room * sizeof(Task))), 0, room};
}

Task &TaskList::emplace_back() {
  if (blocks.empty() || apart || blocks.back().count == blocks.back().room) {
    bool is_first = blocks.empty() || std::exchange(apart, false);
    blocks.push_back(new_block(is_first ? least_room : std::min(2 * blocks.back().room, most_room)));
  }
  Block &block = blocks.back();
  Task *made = new (block.first + block.count) Task;
  block.count++;
  many++;
  return *made;
}

Task &TaskList::emplace_front() {
  blocks.reserve(blocks.size() + 1);
  blocks.insert(blocks.begin(), new_block(1));
  Task *made = new (blocks.front().first) Task;
  blocks.front().count = 1;
  many++;
  return *made;
}

TaskList &TaskList::operator=(TaskList &&other) noexcept {
  if (this == &other) return *this;
  clear();
  blocks.swap(other.blocks);
  many = std::exchange(other.many, 0);
  apart = std::exchange(other.apart, false);
  return *this;
}

void TaskList::clear() {
  for (Block &block : blocks) {
    std::destroy_n(block.first, block.count);
    table_memory::give_back(block.first, block.room * sizeof(Task));
    if (block.room == most_room) table_memory::stay_within();
  }
  blocks = std::vector<Block>();
  many = 0;
  apart = false;
}

std::size_t TaskList::begin_block() {
  apart = true;
  return blocks.size();
}

TaskList TaskList::take(std::size_t first, std::size_t end) {
  TaskList out;
  auto from = blocks.begin() + static_cast<std::ptrdiff_t>(first),
       to = blocks.begin() + static_cast<std::ptrdiff_t>(end);
  out.blocks.assign(from, to);
  blocks.erase(from, to);
  for (const Block &block : out.blocks) out.many += block.count;
  many -= out.many;
  return out;
}
