// Numbers or rows of a table, one after the other, in the memory of tables.
#pragma once
#include <algorithm>
#include <cstddef>
#include <memory>
#include <new>
#include <type_traits>
#include <utility>

#include "table_memory.hpp"

template <class T>
class Column {
  static_assert(std::is_trivially_copyable_v<T>);

 public:
  Column() {}
  Column(Column &&other) noexcept { *this = std::move(other); }
  ~Column() { give_back(); }
  Column &operator=(Column &&other) noexcept {
    std::swap(first, other.first);
    std::swap(count, other.count);
    std::swap(room, other.room);
    return *this;
  }

  std::size_t size() const { return count; }
  bool empty() const { return !count; }
  T *begin() { return first; }
  T *end() { return first + count; }
  const T *begin() const { return first; }
  const T *end() const { return first + count; }
  T &operator[](std::size_t at) { return first[at]; }
  const T &operator[](std::size_t at) const { return first[at]; }
  T &back() { return first[count - 1]; }
  const T &back() const { return first[count - 1]; }

  void clear() { count = 0; }
  void give_back() {
    if (first) table_memory::give_back(first, room * sizeof(T));
    first = nullptr;
    count = room = 0;
  }
  void reserve(std::size_t entries) {
    if (entries <= room) return;
    first = static_cast<T *>(table_memory::get_more(first, room * sizeof(T), count * sizeof(T), entries * sizeof(T)));
    room = entries;
  }
  void push_back(const T &value) {
    if (count == room) reserve(room ? 2 * room : 1);
    new (first + count++) T(value);
  }
  void append(const T *values, std::size_t more) {
    if (count + more > room) reserve(std::max(count + more, 2 * room));
    std::uninitialized_copy_n(values, more, first + count);
    count += more;
  }
  void resize(std::size_t entries, const T &value) {
    if (entries > room) reserve(std::max(entries, 2 * room));
    constexpr std::size_t at_once = 1 << 16;
    while (count < entries) {
      std::size_t more = std::min(entries - count, at_once);
      std::uninitialized_fill_n(first + count, more, value);
      count += more;
      if (more == at_once) table_memory::stay_within();
    }
    count = entries;
  }

 private:
  T *first = nullptr;
  std::size_t count = 0, room = 0;
};
