#include "region_table.hpp"

#include <algorithm>

#include "json.hpp"
#include "piece.hpp"
#include "program_time.hpp"

namespace {
constexpr size_t longest_piece = 1 << 16;

uint64_t loops_of(const Region &region) {
  uint64_t sum = 0;
  for (auto &[what, met] : region.divided) sum += met.times;
  return sum;
}

int64_t end_of(const RegionRow &row, const WholeTime &time) {
  return std::max(row.end ? row.end : time.end, row.begin);
}

void put_row(Piece &piece, uint64_t number, const RegionRow &row, const WholeTime &time, const Places &places) {
  for (int64_t value : {static_cast<int64_t>(number), int64_t{row.text}, row.begin - time.start,
                        end_of(row, time) - time.start, int64_t{row.threads}, int64_t{row.asked}, int64_t{row.tasks},
                        int64_t{row.loops}, row.in_code, int64_t{!row.is_outermost}}) {
    piece.number(value);
    piece.put(",");
  }
  piece.put(places.at(row.code));
  piece.put("\n");
}

// In the order of time, and of numbers.
std::vector<const RegionRow *> rows_of_program(const Run &run) {
  std::vector<const RegionRow *> rows;
  for (const RegionRow &row : run.rows)
    if (row.of_program) rows.push_back(&row);
  auto is_before = [](auto *a, auto *b) { return std::pair(a->begin, a->number) < std::pair(b->begin, b->number); };
  if (!std::is_sorted(rows.begin(), rows.end(), is_before)) std::sort(rows.begin(), rows.end(), is_before);
  return rows;
}
}  // namespace

RegionRow row_of(const Region &region) {
  RegionRow row;
  row.number = region.number;
  row.text = static_cast<uint32_t>(region.text);
  row.threads = region.threads;
  row.asked = region.asked;
  row.tasks = static_cast<uint32_t>(region.created - region.chunks);
  row.loops = static_cast<uint32_t>(loops_of(region));
  row.of_program = region.of_program;
  row.is_in_whole = region.whole;
  row.code = region.code;
  row.in_code = in_code(region);
  row.set(region.time);
  return row;
}

void list_regions(Run &run) {
  for (auto &[number, region] : run.regions) {
    run.rows.push_back(row_of(*region));
    run.rows.back().number = number;
  }
}

std::vector<const void *> codes_of_regions(const Run &run) {
  std::vector<const void *> out;
  for (const RegionRow &row : run.rows)
    if (out.empty() || out.back() != row.code) out.push_back(row.code);
  std::sort(out.begin(), out.end());
  out.erase(std::unique(out.begin(), out.end()), out.end());
  return out;
}

void print_regions(const Run &run, const WholeTime &time, const Places &places, const Taker &taker) {
  std::vector<const RegionRow *> rows = rows_of_program(run);
  Piece piece;
  piece.put("number,text,begin_ns,end_ns,threads,asked,tasks,loops,code_ns,inside,place\n0,0,0," +
            std::to_string(time.end - time.start) + ",1,0,0,0," + std::to_string(time.outside) + ",0,\n");
  for (size_t i = 0; i < rows.size(); i++) {
    put_row(piece, i + 1, *rows[i], time, places);
    if (piece.size() >= longest_piece) taker(piece.words()), piece.clear();
  }
  taker(piece.words());
}

void RegionSums::add(const RegionRow &row, const WholeTime &time, const std::string &place) {
  int64_t begin = row.begin - time.start, end = end_of(row, time) - time.start;
  is_simple = is_simple && row.is_outermost;
  has_tasks = has_tasks || row.tasks;
  if (!row.is_outermost) return;
  OfPlace &of = by_place.try_emplace(place, OfPlace{by_place.size()}).first->second;
  of.times++;
  of.elapsed += std::max<int64_t>(0, end - std::max(begin, of.covered));
  of.covered = std::max(of.covered, end);
  of.code += row.in_code;
  Team &team = of.teams[row.threads];
  team.elapsed += end - begin;
  team.asked = std::max(team.asked, row.asked);
}

unsigned RegionSums::most_threads(std::string_view place) const {
  auto found = by_place.find(place);
  return found == by_place.end() ? 0 : found->second.teams.rbegin()->first;
}

void RegionSums::put(Object &line) const {
  if (!is_simple) return;
  std::vector<std::string> lists(by_place.size());
  for (auto &[place, of] : by_place) {
    std::string teams;
    for (auto &[threads, team] : of.teams)
      teams += (teams.empty() ? "[" : ", [") + std::to_string(threads) + ", " + std::to_string(team.elapsed) + ", " +
               std::to_string(team.asked) + "]";
    lists[of.number] = "[" + in_json(place) + ", " + std::to_string(of.times) + ", " + std::to_string(of.elapsed) +
                       ", " + std::to_string(of.code) + ", [" + teams + "]]";
  }
  std::string list;
  for (const std::string &one : lists) list += (list.empty() ? "" : ", ") + one;
  line.put_bare("regions", Object().put("tasks", has_tasks).put_bare("places", "[" + list + "]").end());
}

RegionSums sums_of_regions(const Run &run, const WholeTime &time, const Places &places) {
  RegionSums sums;
  for (const RegionRow *row : rows_of_program(run)) sums.add(*row, time, places.at(row->code));
  return sums;
}
