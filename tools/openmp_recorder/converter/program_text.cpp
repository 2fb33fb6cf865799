#include "program_text.hpp"

#include <omp-tools.h>

#include <array>
#include <set>
#include <utility>

#include "piece.hpp"
#include "recent.hpp"
#include "segment_table.hpp"
#include "size.hpp"
#include "stretches.hpp"

namespace {
constexpr size_t longest_piece = 1 << 15;
constexpr std::string_view of_a_thread = "one of the region's threads";

// Where the writer is in a task's own code.
struct Place {
  Task &task;
  unsigned indent;
  size_t next = 0;  // of its steps
  unsigned segment = 0;  // the open one, counted within the task
  int64_t cost = 0;  // of the open segment, not written yet
};

// Tasks may lie so deep within each other that the writer keeps the open ones in a list of its own.
class Writer {
 public:
  Writer(Region &of, const Style &chosen, const Places &known, const Taker &to, SegmentTable *segments)
      : region(of), style(chosen), places(known), taker(to), table(segments) {}
  void tell(const PartTaker &behind);

 private:
  Region &region;
  const Style &style;
  const Places &places;
  const Taker &taker;
  SegmentTable *table;  // null where none is wanted
  Piece piece;  // not handed on yet
  std::vector<Place> inside;  // the open tasks, innermost last
  uint32_t opened = 0;
  Column<uint32_t> names;  // by the number of a location
  uint32_t named = 0;
  struct Asked {
    const void *code = nullptr;
    std::string_view place;
  };
  std::array<Asked, recent_slots> asked;  // the last of each slot
  std::string what_and_where;

  void begin_line(unsigned indent);
  void end_line(std::string_view comment = {});
  void line(unsigned indent, std::string_view words, std::string_view comment = {});
  void items(const Task &t);
  void flush(Place &p);
  uint32_t &number(const Place &p) { return region.numbers[p.task.first_number + p.segment]; }
  void open(Place &p);
  void step(Place &p, const Step &step);
  void create(Place &p, Task &child);
  void pieces(Place &p, Task &chunk);
  uint32_t name_of(const Item &item);
  std::string_view place_at(const void *code);
  std::string_view at_place(std::string_view what, const void *code);
  std::string_view place_of(const Task &t);
  std::string_view place_of_group(const Place &p, const Step &begin);
  void enter(Task &t, unsigned indent);
  void leave();
  void part(Region &part);
};

std::string_view type_of(uint64_t type) {
  switch (type) {
    case ompt_dependence_type_in: return "in";
    case ompt_dependence_type_out: return "out";
    case ompt_dependence_type_mutexinoutset:
    case ompt_dependence_type_inoutset: return "inoutset";
    default: return "inout";
  }
}

int64_t rounded(int64_t nanoseconds, int64_t unit) { return unit == 1 ? nanoseconds : (nanoseconds + unit / 2) / unit; }

void Writer::begin_line(unsigned indent) {
  if (!style.large) piece.blanks(2 * indent);
}

void Writer::end_line(std::string_view comment) {
  if (!comment.empty()) {
    piece.put("  # ");
    piece.put(comment);
  }
  piece.put("\n");
  if (piece.size() < longest_piece) return;
  taker(piece.words());
  piece.clear();
  table_memory::stay_within();
}

void Writer::line(unsigned indent, std::string_view words, std::string_view comment) {
  begin_line(indent);
  piece.put(words);
  end_line(comment);
}

// Names are numbered in the order of the text, and locations in that of the records.
uint32_t Writer::name_of(const Item &item) {
  if (item.location >= names.size()) names.resize(2 * item.location + 1, none);
  uint32_t &name = names[item.location];
  if (name == none) name = named++;
  return name;
}

void Writer::items(const Task &t) {
  std::string_view last;
  for (const Item &item : t.items) {
    std::string_view type = type_of(item.type);
    if (type == last) {
      piece.put(", a");
    } else {
      if (!last.empty()) piece.put(")");
      piece.put(" depend(");
      piece.put(type);
      piece.put(": a");
    }
    piece.number(name_of(item));
    last = type;
  }
  if (!last.empty()) piece.put(")");
}

void Writer::flush(Place &p) {
  int64_t cost = rounded(p.cost, style.unit);
  if (cost) {
    begin_line(p.indent);
    piece.put("work ");
    piece.number(static_cast<uint64_t>(cost));
    end_line();
    if (table) table->work(static_cast<uint64_t>(cost));
  }
  p.cost = 0;
}

void Writer::open(Place &p) {
  if (style.numbered) number(p) = opened++;
}

std::string_view Writer::place_at(const void *code) {
  Asked &last = asked[recent_slot(code)];
  if (code != last.code) last = {code, places.at(code)};
  return last.place;
}

// Such as `turns of the loop at tri.c:9`, until it is asked for again.
std::string_view Writer::at_place(std::string_view what, const void *code) {
  what_and_where = what;
  std::string_view place = place_at(code);
  if (!place.empty()) what_and_where.append(" at ").append(place);
  return what_and_where;
}

std::string_view Writer::place_of(const Task &t) {
  if (t.part) return of_a_thread;
  if (t.origin == Origin::Task) return place_at(t.code);
  return at_place(t.origin == Origin::Turns ? "turns of the loop" : "a section", t.code);
}

// A group of turns or sections begins with one of them, and has its place.
std::string_view Writer::place_of_group(const Place &p, const Step &begin) {
  bool is_empty = p.next == p.task.steps.size() || p.task.steps[p.next].kind != Kind::Create;
  const Task *first = is_empty ? nullptr : p.task.steps[p.next].child();
  if (!first || first->origin == Origin::Task || first->code != begin.code()) return place_at(begin.code());
  return at_place(first->origin == Origin::Turns ? "the loop" : "the sections", begin.code());
}

// What is left over of the cost, a unit for each of the first.
void Writer::pieces(Place &p, Task &chunk) {
  if (style.numbered) {
    chunk.first_number = static_cast<uint32_t>(region.numbers.size());
    region.numbers.push_back(opened);
  }
  uint64_t cost = static_cast<uint64_t>(rounded(chunk.total, style.unit)), longer = cost % chunk.pieces;
  std::string_view place = place_of(chunk);
  for (uint32_t i = 0; i < chunk.pieces; i++) {
    uint64_t of_one = cost / chunk.pieces + (i < longer);
    line(p.indent, "task {", place);
    begin_line(p.indent + 1);
    piece.put("work ");
    piece.number(of_one);
    end_line();
    line(p.indent, "}");
    if (table) table->task({}, place), table->work(of_one), table->end();
  }
  p.segment++;
  opened += 2 * chunk.pieces - 1;
  open(p);
}

void Writer::create(Place &p, Task &child) {
  flush(p);
  if (child.pieces > 1) return pieces(p, child);
  begin_line(p.indent);
  piece.put("task");
  size_t clauses = piece.size();
  if (child.undeferred) piece.put(" if(0)");
  items(child);
  std::string_view place = place_of(child);
  if (table) table->task(piece.words().substr(clauses), place);
  piece.put(" {");
  end_line(place);
  enter(child, p.indent + 1);
}

void Writer::step(Place &p, const Step &step) {
  if (step.kind != Kind::Work && step.kind != Kind::Create) flush(p);
  switch (step.kind) {
    case Kind::Work: p.cost += step.cost(); return;
    case Kind::Create: return create(p, *step.child());
    case Kind::Wait:
      line(p.indent, "taskwait", place_at(step.code()));
      if (table) table->wait(place_at(step.code()));
      p.segment++;
      return open(p);
    case Kind::GroupBegin: {
      std::string_view place = place_of_group(p, step);
      if (table) table->group(place);
      return line(p.indent++, "taskgroup {", place);
    }
    case Kind::GroupEnd:
      line(--p.indent, "}");
      if (table) table->end();
      p.segment++;
      return open(p);
  }
}

void Writer::enter(Task &t, unsigned indent) {
  if (style.numbered) {
    t.first_number = static_cast<uint32_t>(region.numbers.size());
    region.numbers.resize(region.numbers.size() + t.segment + 1, none);
  }
  open(inside.emplace_back(Place{t, indent}));
}

void Writer::leave() {
  flush(inside.back());
  inside.pop_back();
  if (inside.empty()) return;
  Place &maker = inside.back();
  line(maker.indent, "}");
  if (table) table->end();
  maker.segment++;
  open(maker);
}

// The root's first segment is its last one of the part before.
void Writer::part(Region &part) {
  region.numbers.clear();
  if (opened) opened--;
  enter(*part.root, 0);
  while (!inside.empty()) {
    Place &p = inside.back();
    if (p.next < p.task.steps.size()) step(p, p.task.steps[p.next++]);
    else leave();
  }
}

void Writer::tell(const PartTaker &behind) {
  line(0, "omptasks 1");
  auto one = [&](Region &that) {
    uint32_t first = opened - (opened > 0);
    part(that);
    if (behind) behind(that, first, opened);
  };
  each_stretch(region, style.numbered, [&](Region &stretch) { add_up(stretch), size_of(stretch), one(stretch); });
  one(region);
  region.opened = opened;
  taker(piece.words());
}

// Of the lines of one task's own code.
int64_t own_work(const Task &t, int64_t unit) {
  int64_t work = 0, cost = 0;
  for (const Step &step : t.steps) {
    if (step.kind == Kind::Work) cost += step.cost();
    else work += rounded(std::exchange(cost, 0), unit);
  }
  return work + rounded(cost, unit);
}
}  // namespace

int64_t work_in_units(const Region &region, int64_t unit) {
  int64_t work = region.before ? region.before->work_in_units : 0;
  if (unit == 1) return work + region.root->total;
  for (const Task &t : region.tasks)
    if (t.shown) work += own_work(t, unit);
  return work;
}

void print_program(Region &region, const Style &style, const Places &places, const Taker &taker, SegmentTable *table,
                   const PartTaker &behind) {
  Writer(region, style, places, taker, table).tell(behind);
}

std::vector<const void *> codes_of(const Region &region) {
  std::set<const void *> codes{region.code};
  if (region.before) codes.insert(region.before->codes.begin(), region.before->codes.end());
  CodesMet met(codes);
  for (const Task &t : region.tasks) {
    if (!t.shown) continue;
    met.add(t.code);
    for (const Step &step : t.steps)
      if (step.kind != Kind::Work && step.kind != Kind::Create) met.add(step.code());
  }
  for (auto &[what, seen] : region.remarks) codes.insert(seen.code);
  for (auto &[name, use] : region.locks) codes.insert(use.code);
  for (auto &[what, met] : region.divided) codes.insert(met.code);
  return {codes.begin(), codes.end()};
}
