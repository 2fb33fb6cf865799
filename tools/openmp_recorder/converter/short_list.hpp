// A list whose first entry lies in it: most tasks have one step, which then needs no memory of its own.
#pragma once
#include <algorithm>
#include <cstddef>
#include <cstdint>
#include <iterator>
#include <type_traits>
#include <utility>

#include "table_memory.hpp"

template <class T>
class ShortList {
  static_assert(std::is_trivially_copyable_v<T> && sizeof(T) == sizeof(T *));

 public:
  // A task may have made millions, which do not all stay in memory.
  template <class Of>
  class Place {
   public:
    using iterator_category = std::forward_iterator_tag;
    using value_type = Of;
    using difference_type = std::ptrdiff_t;
    using pointer = Of *;
    using reference = Of &;
    explicit Place(Of *entry) : at(entry) {}
    Of &operator*() const { return *at; }
    Of *operator->() const { return at; }
    Place &operator++() {
      constexpr std::uintptr_t between = 1 << 12;
      if (reinterpret_cast<std::uintptr_t>(++at) % between == 0) table_memory::stay_within();
      return *this;
    }
    bool operator==(const Place &other) const { return at == other.at; }
    bool operator!=(const Place &other) const { return at != other.at; }

   private:
    Of *at;
  };

  ShortList() {}
  ShortList(const ShortList &other) { *this = other; }
  ShortList(ShortList &&other) noexcept { *this = std::move(other); }
  ~ShortList() { give_back(); }
  ShortList &operator=(const ShortList &other);
  ShortList &operator=(ShortList &&other) noexcept;

  uint32_t size() const { return count; }
  bool empty() const { return !count; }
  Place<T> begin() { return Place<T>(data()); }
  Place<T> end() { return Place<T>(data() + count); }
  Place<const T> begin() const { return Place<const T>(data()); }
  Place<const T> end() const { return Place<const T>(data() + count); }
  T *data() { return is_short() ? &first : many; }
  const T *data() const { return is_short() ? &first : many; }
  T &operator[](std::size_t at) { return data()[at]; }
  const T &operator[](std::size_t at) const { return data()[at]; }
  T &back() { return data()[count - 1]; }
  void clear() { count = 0; }
  void pop_back() { count--; }
  void reserve(uint32_t entries) {
    if (entries > room) grow(entries);
  }
  void push_back(T value) {
    if (count == room) grow(is_short() ? 4 : 2 * room);
    data()[count++] = value;
  }

 private:
  union {
    T first;
    T *many;
  };
  uint32_t count = 0, room = 1;

  bool is_short() const { return room == 1; }
  void give_back() {
    if (!is_short()) table_memory::give_back(many, room * sizeof(T));
  }
  void grow(uint32_t entries);
};

template <class T>
void ShortList<T>::grow(uint32_t entries) {
  bool was_short = is_short();
  void *memory = was_short ? table_memory::get(entries * sizeof(T))
                           : table_memory::get_more(many, room * sizeof(T), count * sizeof(T), entries * sizeof(T));
  T *list = static_cast<T *>(memory);
  if (was_short && count) *list = first;
  many = list;
  room = entries;
}

template <class T>
ShortList<T> &ShortList<T>::operator=(const ShortList &other) {
  if (this == &other) return *this;
  clear();
  reserve(other.count);
  std::copy_n(other.data(), other.count, data());
  count = other.count;
  return *this;
}

template <class T>
ShortList<T> &ShortList<T>::operator=(ShortList &&other) noexcept {
  if (this == &other) return *this;
  give_back();
  if (other.is_short()) first = other.first;
  else many = other.many;
  count = std::exchange(other.count, 0);
  room = std::exchange(other.room, 1);
  return *this;
}
