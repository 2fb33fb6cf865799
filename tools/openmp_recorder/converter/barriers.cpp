#include "barriers.hpp"

#include <algorithm>
#include <string>

#include "json.hpp"

namespace {
constexpr double alone = 0.05;  // of the largest piece of a phase: where the others have less, one thread runs it
}  // namespace

// Of threads that had so much, until the last one has ended.
int64_t Barriers::waits_of(const Costs &costs) {
  int64_t most = 0, all = 0;
  for (const Cost &one : costs) most = std::max(most, one.cost), all += one.cost;
  return static_cast<int64_t>(costs.size()) * most - all;
}

bool Barriers::is_alone(const Costs &costs) {
  int64_t most = 0, all = 0;
  for (const Cost &one : costs) most = std::max(most, one.cost), all += one.cost;
  return static_cast<double>(all - most) < alone * static_cast<double>(most);
}

void Barriers::add_to(Costs &all, const Cost &one) {
  auto known = std::find_if(all.begin(), all.end(), [&](const Cost &other) { return other.thread == one.thread; });
  if (known == all.end()) all.push_back(one);
  else known->cost += one.cost;
}

Barriers::Sums &Barriers::sums_of(uint32_t of_region, uint32_t kind) {
  auto [found, is_new] = sums.try_emplace(of_region);
  if (is_new) {
    found->second.kind = kind;
    found->second.team = team_of(table.words_of(of_region));
  }
  return found->second;
}

void Barriers::take(const Events &events, const std::vector<SegmentTable::Around> &around) {
  for (const SegmentTable::Around &one : around)
    if (table.is_own(one.kind)) threads.push_back(events.times[one.segment - events.first_segment()].worker);
  take_parts(table.take_parts());
}

void Barriers::take_parts(const SegmentTable::OwnParts &parts) {
  const SegmentTable::Share *first = parts.shares.data();
  for (const SegmentTable::OwnPart &part : parts.all) {
    add(part, first, threads.front());
    threads.pop_front();
    first += part.shares;
  }
}

void Barriers::add(const SegmentTable::OwnPart &part, const SegmentTable::Share *first, unsigned thread) {
  if (!is_begun || part.group != group) {
    end_phase();
    Sums &all = sums_of(part.region, part.kind);
    is_further = is_begun && part.is_behind && part.region == region;
    is_begun = true;
    region = part.region;
    group = part.group;
    all.times += !is_further;
    if (!is_further) end_chain(all);
  }
  Ran one{part.has_tasks, shares.size(), shares.size() + part.shares};
  shares.insert(shares.end(), first, first + part.shares);
  Cost own{thread, 0};
  for (size_t i = one.first; i < one.end; i++) own.cost += static_cast<int64_t>(shares[i].cost);
  auto same = std::find_if(phase.costs.begin(), phase.costs.end(), [&](auto &other) { return other.thread == thread; });
  if (same == phase.costs.end()) phase.costs.push_back(own), ran.push_back(one);
  else *same = own, ran[static_cast<size_t>(same - phase.costs.begin())] = one;
}

// Of all threads, and without tasks.
bool Barriers::is_whole(unsigned team) const {
  return ran.size() >= team && std::none_of(ran.begin(), ran.end(), [](const Ran &one) { return one.has_tasks; });
}

void Barriers::gather() {
  places.clear();
  for (const Ran &one : ran)
    for (size_t i = one.first; i < one.end; i++)
      if (shares[i].cost) add_to(places, shares[i].place, static_cast<int64_t>(shares[i].cost));
  auto most = std::max_element(places.begin(), places.end(), [](auto &a, auto &b) { return a.time < b.time; });
  phase.place = most == places.end() ? no_place : most->place;
}

void Barriers::add_to(std::vector<Wait> &all, Place place, int64_t time) {
  auto known = std::find_if(all.begin(), all.end(), [&](const Wait &one) { return one.place == place; });
  if (known == all.end()) all.push_back({place, time});
  else known->time += time;
}

void Barriers::end_phase() {
  if (ran.empty()) return;
  Sums &all = sums.at(region);
  if (all.team && is_whole(all.team)) gather(), follow(all);
  else end_chain(all);
  ran.clear();
  shares.clear();
  phase.costs.clear();
}

void Barriers::follow(Sums &all) {
  int64_t wait = waits_of(phase.costs);
  add_to(all.waits, phase.place, wait);
  if (is_alone(phase.costs)) return end_chain(all);
  for (const Wait &before : all.last) add_to(all.behind, before.place, before.time);
  all.last.assign(1, {phase.place, wait});
  all.waited += wait;
  for (const Cost &one : phase.costs) add_to(all.costs, one);
}

// What its threads would have waited less without the barriers between its phases.
void Barriers::end_chain(Sums &all) {
  all.less += all.waited - waits_of(all.costs);
  all.waited = 0;
  all.costs.clear();
  all.last.clear();
}

void Barriers::put(Object &line) {
  take_parts(table.take_parts());
  end_phase();
  std::string list;
  auto put_waits = [&](const std::vector<Wait> &waits) {
    list += ", [";
    for (const Wait &one : waits)
      list += (&one == &waits.front() ? "[" : ", [") +
              (one.place == no_place ? "null" : std::to_string(table.kind_of(one.place))) + ", " +
              std::to_string(one.time) + "]";
    list += "]";
  };
  for (auto &[of_region, all] : sums) {
    end_chain(all);
    if (!all.team) continue;
    list += (list.empty() ? "[" : ", [") + std::to_string(all.kind) + ", " + std::to_string(all.times) + ", " +
            std::to_string(all.less);
    put_waits(all.waits);
    put_waits(all.behind);
    list += "]";
  }
  line.put_bare("barriers", "[" + list + "]");
}
