// Places that are met task by task: most of them are of a few, of which each has a slot.
#pragma once
#include <array>
#include <cstddef>
#include <cstdint>
#include <set>

constexpr std::size_t recent_slots = 64;

// Those of call paths, whose numbers stand above two bits, have slots of their own.
inline std::size_t recent_slot(const void *code) { return (reinterpret_cast<uintptr_t>(code) >> 2) % recent_slots; }

// All of them, each once; nothing is no place.
class CodesMet {
 public:
  explicit CodesMet(std::set<const void *> &into) : codes(into) {}
  void add(const void *code) {
    const void *&recent = last[recent_slot(code)];
    if (code != recent) codes.insert(recent = code);
  }

 private:
  std::set<const void *> &codes;
  std::array<const void *, recent_slots> last{};
};
