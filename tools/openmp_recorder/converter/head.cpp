#include "head.hpp"

#include <omp-tools.h>

#include <algorithm>
#include <map>
#include <set>
#include <vector>

#include "json.hpp"
#include "lock_table.hpp"
#include "stretches.hpp"
#include "program_text.hpp"

namespace {
constexpr size_t most_locks = 10;
constexpr int64_t least_difference = 50000;  // of the clocks, that is reported
constexpr size_t most_preempted = 1000;  // segments, of which that is reported

class Head {
 public:
  Head(const Options &chosen, const Places &known) : options(chosen), places(known) {}
  std::string words;
  void first_lines(const Region &region, const Recording &recording);
  void covered(const Region &region, const ThreadTime &threads);
  void covered_of_whole(const WholeProgram &program, const ThreadTime &threads);
  void divided(const Region &region);
  void clocks(const Region &region);
  void preempted(const Region &region);
  void times(const Region &region, const Recording &recording);
  void locks(const Region &region);
  void short_chunks(const WholeProgram &program);
  void few_turns(const WholeProgram &program);
  void remarks(const Region &region);
  void functions(const Region &region);

 private:
  const Options &options;
  const Places &places;
  int64_t in_units(int64_t nanoseconds) { return (nanoseconds + options.unit / 2) / options.unit; }
  void line(const char *name, const Object &fields) { words += std::string("# ") + name + ": " + fields.end() + "\n"; }
  void line(const char *name, int64_t number) {
    words += std::string("# ") + name + ": " + std::to_string(number) + "\n";
  }
  void whole(const WholeProgram &program);
  void covers(int64_t text, int64_t all, bool is_whole);
  void differing(const char *name, const Differing &seen, int64_t work);
  void lock(Object &fields, const LockUse &use);
};

const char *clock_name() {
  if (record_clock().leaves_out) return "own";
  return record_clock().of_processor ? "cpu" : "wall";
}

void Head::first_lines(const Region &region, const Recording &recording) {
  line("recorded", Object()
                       .put("program", recording.program)
                       .put("date", recording.date)
                       .put("threads", region.threads)
                       .put("clock", clock_name())
                       .put("unit", options.unit_name));
  if (recording.whole) return whole(*recording.whole);
  Object fields;
  std::string at = places.at(region.code);
  if (!at.empty()) fields.put("at", at);
  line("region", fields.put("number", region.place).put("of", recording.regions));
}

// How loops are written, which on other threads would be cut otherwise.
void Head::whole(const WholeProgram &program) {
  Object fields;
  fields.put("regions", program.regions);
  if (program.pieces) fields.put("loops", program.loops);
  if (program.pieces && program.sections) fields.put("sections", program.sections);
  if (program.pieces) fields.put("pieces", program.pieces);
  if (program.pieces && program.least_piece < INT64_MAX) fields.put("together below", program.least_piece);
  line("whole program", fields);
}

void Head::covers(int64_t text, int64_t all, bool is_whole) {
  Object fields;
  fields.put("text", text).put("program", all);
  if (!is_whole) fields.put("at most", true);
  line("covers", fields);
}

// How much of the program's thread-time in code the text has, and where the rest was.
void Head::covered(const Region &region, const ThreadTime &threads) {
  int64_t all = in_units(threads.all()), own = std::min(in_units(in_code(region)), all);
  int64_t text = std::clamp<int64_t>(in_units(region.root->total - region.in_own_regions), 0, own);
  if (!all) return;
  covers(text, all, threads.whole);
  int64_t outside = std::min(in_units(threads.outside), all - own);
  line("not covered", Object()
                          .put("outside regions", outside)
                          .put("in other regions", all - own - outside)
                          .put("of this region", own - text));
}

// The thread-time in the text over that of the program.
void Head::covered_of_whole(const WholeProgram &program, const ThreadTime &threads) {
  int64_t all = in_units(threads.all()), text = std::min(in_units(program.work), all);
  if (!all) return;
  covers(text, all, threads.whole);
  line("not covered", Object().put("of the program", all - text));
}

int64_t without_chunks(const Task &part) {
  int64_t cost = part.total;
  for (const Step &step : part.steps)
    if (step.kind == Kind::Create && step.child()->pieces) cost -= step.child()->total;
  return cost;
}

// What was divided among as many threads as this run had.
void Head::divided(const Region &region) {
  if (region.threads == 1) return;
  auto begin = [&](const char *what) { return Object().put("what", what).put("threads", region.threads); };
  for (auto &[what, met] : region.divided) {
    Object fields = begin(what == Divided::Loops ? "loops" : "sections");
    line("divided", put_occurrences(fields, met, places));
  }
  Beside beside = beside_each_other(region.parts);
  if (region.before) beside.add(region.before->beside);
  if (beside.parts) line("divided", begin("code").put("parts", beside.parts).put("beside", in_units(beside.cost)));
}

void Head::clocks(const Region &region) {
  line("clock reading", record_clock().reading);
  differing(record_clock().leaves_out ? "taken off" : "clocks differ", region.differing, region.cost);
  differing("slept", region.asleep, region.cost);
  if (region.untimed >= least_difference) line("untimed", in_units(region.untimed));
}

void Head::differing(const char *name, const Differing &seen, int64_t work) {
  if (seen.off < least_difference) return;
  line(name, Object()
                 .put("affected", in_units(seen.cost))
                 .put("work", in_units(work))
                 .put("by", in_units(seen.off))
                 .put("times", seen.at.times));
}

// By segments of the text, which have their numbers by now; of the large ones those that took the most.
void Head::preempted(const Region &region) {
  std::map<uint32_t, int64_t> by_segment;
  for (const Preempted &one : region.preempted)
    if (uint32_t number = number_in_text(*one.task, one.segment, region); number != none) by_segment[number] += one.off;
  std::vector<std::pair<int64_t, uint32_t>> found;
  for (auto [segment, off] : by_segment)
    if (in_units(off)) found.push_back({in_units(off), segment});
  if (found.empty()) return;
  std::sort(found.rbegin(), found.rend());
  if (found.size() > most_preempted) found.resize(most_preempted);
  std::string fields;
  for (auto [off, segment] : found)
    fields += (fields.empty() ? "[" : ", [") + std::to_string(segment) + ", " + std::to_string(off) + "]";
  words += "# preempted: [" + fields + "]\n";
}

void Head::times(const Region &region, const Recording &recording) {
  int64_t elapsed = region.time.end - region.time.begin;
  line("elapsed", in_units(elapsed));
  int64_t others = recording.time.in_regions - elapsed;  // another one runs around a region that is inside
  if (recording.whole) {
    line("in serial code", in_units(recording.whole->serial));
    line("in loops", in_units(recording.whole->in_loops));
  } else {
    line("outside regions", in_units(recording.time.outside));
    line("in other regions", in_units(std::max<int64_t>(others, 0)));
  }
  line("in parts without tasks", in_units(region.in_parts));
  line("in tasks", in_units(region.in_tasks));
}

void Head::lock(Object &fields, const LockUse &use) {
  fields.put("times", use.times).put("inside", in_units(use.inside)).put("waiting", in_units(use.waiting));
  line("lock", fields);
}

// Of each object the time inside it bounds the run; all are reported by place and kind, whatever was locked there.
void Head::locks(const Region &region) {
  LockSums sums;
  int64_t alone = 0;
  for (auto &[name, use] : region.locks) add(sums, use, places), alone = std::max(alone, use.alone);
  if (alone) line("most held lock", in_units(alone));
  LockUse others;
  size_t count = 0;
  for (auto &[name, use] : most_first(sums, &LockUse::inside)) {
    if (count++ >= most_locks) {
      others.add(use);
      continue;
    }
    Object fields;
    fields.put("kind", name.second);
    if (!name.first.empty()) fields.put("at", name.first);
    lock(fields, use);
  }
  Object fields;
  if (others.times) lock(fields.put("others", count - most_locks), others);
}

// A place, and the functions that it is in, from the innermost on.
std::string place_in_json(const std::string &at, const std::vector<Frame> &frames) {
  std::string inlined;
  for (size_t i = 1; i < frames.size(); i++) {
    Object into;
    into.put("in", frames[i].function).put("at", frames[i].at);
    inlined += (i > 1 ? ", " : "") + into.end();
  }
  Object fields;
  fields.put("at", at).put("in", frames[0].function);
  if (!frames[0].full.empty()) fields.put("full", frames[0].full);
  if (!inlined.empty()) fields.put_bare("inlined", "[" + inlined + "]");
  return fields.end();
}

// Of each place; a place that stands in several functions has a line for each.
void Head::functions(const Region &region) {
  std::set<std::string> lines, files;
  for (const void *code : codes_of(region)) {
    const void *call = places.call_at(code);
    std::vector<Frame> frames = places.frames(call);
    if (frames.empty()) continue;
    if (places.at(code) != places.at(call)) frames.resize(1);  // the place has its callers already
    lines.insert(place_in_json(places.at(code), frames));
    files.insert(places.at(code).substr(0, places.at(code).rfind(':')));
  }
  for (const std::string &one : lines) words += "# place: " + one + "\n";
  for (const std::string &one : files)
    if (!places.path(one).empty()) line("source", Object().put("file", one).put("path", places.path(one)));
}

void Head::short_chunks(const WholeProgram &program) {
  for (auto &[code, found] : program.short_chunks)
    line("short chunks", Object().put("at", places.at(code)).put("times", found.times).put("turns", found.turns));
}

// Of which no thread has more than two.
void Head::few_turns(const WholeProgram &program) {
  for (auto &[code, most] : program.most_turns)
    if (most.turns && most.turns < 2 * most.threads)
      line("few turns", Object().put("at", places.at(code)).put("turns", most.turns).put("threads", most.threads));
}

void Head::remarks(const Region &region) {
  for (auto &[what, seen] : region.remarks) words += "# remark: " + remark_in_json(what, seen, places) + "\n";
}
}  // namespace

Beside beside_each_other(const std::vector<Part> &parts) {
  std::vector<std::pair<unsigned, int64_t>> costs;  // by phase, in order
  for (const Part &part : parts)
    if (part.task->parent && !part.task->pieces) costs.push_back({part.phase, without_chunks(*part.task)});
  std::sort(costs.begin(), costs.end());
  Beside out;
  for (size_t first = 0, end = 0; first < costs.size(); first = end) {
    while (end < costs.size() && costs[end].first == costs[first].first) end++;
    if (end - first < 2) continue;
    out.parts += end - first;
    for (size_t i = first; i + 1 < end; i++) out.cost += costs[i].second;  // all but the largest, which is the last
  }
  return out;
}

std::string head_of(const Region &region, const Recording &recording, const Options &options, const Places &places) {
  Head head(options, places);
  head.first_lines(region, recording);
  if (recording.whole) head.covered_of_whole(*recording.whole, recording.threads);
  else head.covered(region, recording.threads);
  head.divided(region);
  head.clocks(region);
  head.preempted(region);
  head.times(region, recording);
  head.locks(region);
  if (recording.whole) head.short_chunks(*recording.whole), head.few_turns(*recording.whole);
  head.remarks(region);
  head.functions(region);
  return head.words;
}

void remark_locks(Region &region) {
  Occurrences seen;
  int64_t inside = 0;
  for (auto &[name, use] : region.locks) {
    inside += use.inside;
    if (!seen.times) seen.code = use.code;
    else if (seen.code != use.code) seen.elsewhere = true;
    seen.times += use.times;
  }
  if (seen.times && inside * 100 >= region.in_parts + region.in_tasks) region.remarks[Remark::HeldLock] = seen;
}

// All that was off the processor may lie on one chain.
void remark_clocks(Region &region) {
  if (record_clock().leaves_out) return;
  const Differing &differing = region.differing;
  int64_t off = differing.off + differing.slightly;
  bool moves_span = off >= least_difference && off * 20 > region.span;
  if (off * 20 <= region.work && !moves_span) return;
  region.remarks[record_clock().of_processor ? Remark::Slept : Remark::Preempted] =
      differing.at.times ? differing.at : differing.slightly_at;
}
