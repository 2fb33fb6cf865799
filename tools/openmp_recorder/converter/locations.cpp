#include "locations.hpp"

#include <utility>

Locations::Slot &Locations::find(uint64_t line) {
  constexpr uint64_t scatter = 0x9e3779b97f4a7c15;
  std::size_t at = (line * scatter >> 32) & (slots.size() - 1);
  while (slots[at].at && slots[at].line != line) at = (at + 1) & (slots.size() - 1);
  return slots[at];
}

void Locations::grow() {
  Column<Slot> old;
  old.resize(slots.empty() ? 64 : 2 * slots.size(), {});
  std::swap(old, slots);
  for (const Slot &slot : old)
    if (slot.at) find(slot.line) = slot;
}

Locations::Line &Locations::line_of(uint64_t line) {
  if (2 * (lines.size() + 1) > slots.size()) grow();
  Slot &slot = find(line);
  if (!slot.at) {
    lines.push_back({});
    slot = {line, static_cast<uint32_t>(lines.size())};
  }
  return lines[slot.at - 1];
}

uint32_t Locations::number(uint64_t address) {
  uint32_t &number = line_of(address / in_line)[address % in_line];
  if (!number) number = ++count;
  return number - 1;
}
