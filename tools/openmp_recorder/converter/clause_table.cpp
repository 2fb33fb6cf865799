#include "clause_table.hpp"

#include <functional>
#include <utility>

// Of the one that it is, or where it is to be.
template <class Is>
uint32_t &ClauseTable::find(uint32_t hash, const Is &is) {
  for (std::size_t at = hash;; at++) {
    uint32_t &slot = slots[at & (slots.size() - 1)];
    if (!slot || (all[slot - 1].hash == hash && is(all[slot - 1]))) return slot;
  }
}

void ClauseTable::grow() {
  slots.clear();
  slots.resize(all.empty() ? 64 : 4 * all.size(), 0);
  uint32_t number = 0;
  for (const Clauses &one : all) find(one.hash, [](const Clauses &) { return false; }) = ++number;
}

uint32_t ClauseTable::number(std::string_view clauses, uint32_t place, uint32_t kind) {
  if (2 * all.size() >= slots.size()) grow();
  auto hash = static_cast<uint32_t>(std::hash<std::string_view>()(clauses) + place);
  uint32_t &slot = find(hash, [&](const Clauses &one) { return one.place == place && words(one) == clauses; });
  if (!slot) {
    all.push_back({letters.size(), static_cast<uint32_t>(clauses.size()), place, kind, hash});
    letters.append(clauses.data(), clauses.size());
    slot = static_cast<uint32_t>(all.size());
  }
  return slot - 1;
}
