#include "segment_table.hpp"

#include <algorithm>

#include "json.hpp"

namespace {
constexpr std::size_t of_a_block = 1 << 16;
constexpr uint64_t most_words = 1 << 16, long_cost = UINT32_MAX;
constexpr uint32_t no_kind = UINT32_MAX;  // of tasks whose kind hangs on the region
constexpr uint32_t no_place = UINT32_MAX;
constexpr std::string_view of_a_thread = "one of the region's threads", barrier = "barrier of the region", at = " at ";
constexpr std::string_view turns = "turns of the loop", section = "a section";
constexpr std::string_view after_words[] = {"", "creating a task", "taskgroup", "taskwait"};

bool begins_with(std::string_view words, std::string_view first) { return words.substr(0, first.size()) == first; }

// The place of a group; that of a loop or of sections has words in front.
std::string_view place_in(std::string_view words) {
  for (std::string_view what : {"the loop", "the sections"})
    if (words == what) return {};
    else if (begins_with(words, what) && begins_with(words.substr(what.size()), at))
      return words.substr(what.size() + at.size());
  return words;
}

// Whether a task of this place stands for turns of a loop, or a section.
bool is_share(std::string_view words) {
  words = words.substr(0, words.find(at));
  words = words.substr(0, words.find(','));
  return words == turns || words == section;
}

void add_number(Piece &list, uint64_t number) {
  if (list.size()) list.put(",");
  list.number(number);
}

std::string in_brackets(std::string_view list) { return "[" + std::string(list) + "]"; }

template <class Number>
void put_column(std::string &out, std::vector<Number> &column) {
  out.append(reinterpret_cast<const char *>(column.data()), column.size() * sizeof(Number));
  column.clear();
}
}  // namespace

uint32_t SegmentTable::word(std::string_view of_place) {
  if (of_place.empty()) return 0;
  uint32_t &last = recent[(of_place.size() + static_cast<unsigned char>(of_place.back())) % recent.size()];
  if (of_place == words[last]) return last;
  auto found = numbers.find(of_place);
  if (found == numbers.end()) {
    found = numbers.emplace(of_place, words.size()).first;
    words.emplace_back(of_place);
    are_of_regions.push_back(begins_with(of_place, of_a_thread) || begins_with(of_place, barrier));
  }
  return last = found->second;
}

// Where the innermost region is that has begun.
uint32_t SegmentTable::region() const {
  uint32_t open = groups.empty() ? 0 : blocks[groups.back()].region;
  return open ? open : closed;
}

uint32_t SegmentTable::kind(After after, uint32_t after_place) {
  uint64_t around_it = are_of_regions[after ? after_place : here.place] ? region() : 0;
  uint64_t key = ((around_it * most_words + after_place) * most_words + here.place) * 8 + after * 2u + here.is_root;
  constexpr uint64_t scatter = 0x9e3779b97f4a7c15;
  auto &[known, number] = recent_kinds[key * scatter >> 58];
  if (known == key + 1) return number;
  auto [found, is_new] = kind_numbers.try_emplace(key, kinds.size());
  if (is_new) {
    kinds.push_back(std::string(here.is_root ? "true" : "false") + ", " + in_json(words[here.place]) + ", " +
                    in_json(after_words[after]) + ", " + in_json(words[after_place]) + ", " +
                    in_json(words[around_it]));
    describe(after, after_place, static_cast<uint32_t>(around_it));
  }
  known = key + 1;
  return number = found->second;
}

// Kinds that have the same words but for the task that they are in are of one place.
void SegmentTable::describe(After after, uint32_t after_place, uint32_t of_region) {
  std::string_view task = words[here.place];
  bool is_own = !after && are_of_regions[here.place], is_divided = is_own || is_share(task);
  OfKind of{no_place, of_region, here.is_root, is_divided, is_own, after && begins_with(words[after_place], barrier)};
  if (is_divided || begins_with(task, of_a_thread)) {
    std::array<uint32_t, 3> key{after, after ? after_place : here.place, is_own ? of_region : 0};
    auto [known, is_new] = places.try_emplace(key, kinds_of_places.size());
    of.place = known->second;
    if (is_new) {
      kinds_of_places.push_back(static_cast<uint32_t>(kinds.size() - 1));
      phases.add_place(is_own, kinds_of_places.back());
    }
  }
  of_kinds.push_back(of);
}

void SegmentTable::close(uint32_t following) {
  auto &[key, place] = recent_sums[(last * 8 + following) % recent_sums.size()];
  uint64_t wanted = (uint64_t{last} << 32 | following) + 1;
  if (key != wanted) {
    auto [met, is_new] = sums_met.try_emplace(wanted, sums.size());
    if (is_new) sums.push_back({last, following});
    key = wanted, place = met->second;
  }
  sums[place].count++, sums[place].cost += cost, sums[place].most = std::max(sums[place].most, cost);
  if (cost >= long_cost) {
    add_number(long_costs, segments - 1);
    add_number(long_costs, cost);
  }
  costs.push_back(static_cast<uint32_t>(cost < long_cost ? cost : 0));
  const OfKind &of = of_kinds[last];
  if (of.is_divided) phases.add(of.place, cost);
  if (has_part) add_to_part(of);
  cost_before = std::exchange(cost, 0);
  if (costs.size() == of_a_block) hand_on();
}

void SegmentTable::hand_on() {
  std::string columns;
  put_column(columns, kinds_of);
  put_column(columns, tasks_of);
  put_column(columns, costs);
  taker(columns);
}

uint32_t SegmentTable::open(After after, uint32_t after_place) {
  is_pending = false;
  uint32_t found = kind(after, after_place);
  const OfKind &of = of_kinds[found];
  if (segments) close(found);
  if (of.is_own || of.is_behind) around.push_back({static_cast<uint32_t>(segments), found});
  if (of.is_own) begin_own(found, of_kinds[last]);
  last = found;
  segments++;
  kinds_of.push_back(static_cast<uint16_t>(found));
  tasks_of.push_back(here.number);
  return found;
}

void SegmentTable::begin_own(uint32_t number, const OfKind &before_it) {
  const OfKind &of = of_kinds[number];
  uint32_t group = groups.empty() ? 0 : blocks[groups.back()].number;
  bool is_behind = before_it.is_behind && !cost_before;
  add_number(own, segments);
  add_number(own, group);
  phases.begin_part(group, of.place, of.region, is_behind);
  if (!keeps_parts) return;
  end_part();
  part = {number, of.region, group, is_behind, false};
  has_part = true;
}

void SegmentTable::add_to_part(const OfKind &of) {
  if (of.place == no_place) {
    part.has_tasks = part.has_tasks || (cost && !of.is_root);
    return;
  }
  auto same = std::find_if(shares.rbegin(), shares.rend(), [&](auto &one) { return one.place == of.place; });
  if (same == shares.rend()) shares.push_back({of.place, cost});
  else same->cost += cost;
}

void SegmentTable::end_part() {
  if (!std::exchange(has_part, false)) return;
  part.shares = static_cast<uint32_t>(shares.size());
  parts.all.push_back(part);
  parts.shares.insert(parts.shares.end(), shares.begin(), shares.end());
  shares.clear();
}

SegmentTable::OwnParts SegmentTable::take_parts() { return std::exchange(parts, {}); }

// A group around the code of a region's threads is the end of a barrier.
void SegmentTable::name_barrier() {
  Block &group = blocks.back();
  std::string name(barrier);
  if (group.place) name.append(at).append(words[group.place]);
  if (group.place) group.region = group.place;
  group.place = word(name);
}

void SegmentTable::task(std::string_view clauses, std::string_view place) {
  uint32_t of_place = word(place);
  if (is_pending && begins_with(place, of_a_thread)) name_barrier();
  blocks.push_back({true, of_place, here});
  here = {false, of_place, ++tasks};
  uint32_t of_kind = open(Nothing, 0);
  uint32_t last = std::exchange(before, UINT32_MAX);
  if (clauses.empty()) return;
  before = written.number(clauses, of_place, are_of_regions[of_place] ? no_kind : of_kind);
  written[before].count++;
  written[before].again += before == last;
}

void SegmentTable::group(std::string_view place) {
  uint32_t own = word(place_in(place)), around = groups.empty() ? 0 : blocks[groups.back()].region;
  groups.push_back(blocks.size());
  blocks.push_back({false, word(place), here, ++begun, own ? own : around});
  is_pending = true;
}

void SegmentTable::wait(std::string_view place) { open(Wait, word(place)); }

void SegmentTable::end() {
  Block block = blocks.back();
  blocks.pop_back();
  if (!block.is_task) {
    phases.end_group(block.number);
    closed = block.region;
    groups.pop_back();
  }
  here = block.outer;
  open(block.is_task ? Creating : Group, block.place);
}

// In JSON.
std::string SegmentTable::phases_in_lists() {
  std::string list;
  for (const Phases::Sums &one : phases.finish()) {
    if (!one.phases && !one.uneven) continue;
    list += list.empty() ? "[" : ", [";
    for (uint64_t number : {uint64_t{one.kind}, one.longest, one.alone, one.uneven, one.by_a_turn, one.phases})
      list += std::to_string(number) + ", ";
    list += std::to_string(one.further) + "]";
  }
  return in_brackets(list);
}

bool SegmentTable::finish(const std::function<void(Object &)> &more) {
  close(0);
  end_part();
  hand_on();
  std::string list;
  for (const std::string &kind : kinds) list += (list.empty() ? "[" : ", [") + kind + "]";
  Object line;
  line.put("segments", segments).put_bare("kinds", in_brackets(list)).put_bare("long", in_brackets(long_costs.words()));
  list.clear();
  for (const Sums &one : sums)
    list += (list.empty() ? "[" : ", [") + std::to_string(one.kind) + ", " + std::to_string(one.following) + ", " +
            std::to_string(one.count) + ", " + std::to_string(one.cost) + ", " + std::to_string(one.most) + "]";
  line.put_bare("sums", in_brackets(list)).put_bare("own", in_brackets(own.words()));
  line.put_bare("phases", phases_in_lists());
  if (more) more(line);
  list = "\n" + line.end();
  list.replace(list.size() - 1, 1, ", \"clauses\": [");  // there may be as many as tasks
  for (uint32_t number = 0; number < written.size(); number++) {
    const Clauses &one = written[number];
    list += (number ? ", [" : "[") + (one.kind == no_kind ? "null" : std::to_string(one.kind)) + ", " +
            in_json(written.words(one)) + ", " + std::to_string(one.count) + ", " + std::to_string(one.again) + "]";
    if (list.size() >= of_a_block) taker(list), list.clear(), table_memory::stay_within();
  }
  taker(list + "]}\n");
  return kinds.size() < most_words && words.size() < most_words;
}
