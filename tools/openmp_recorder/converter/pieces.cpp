#include "pieces.hpp"

#include <algorithm>
#include <numeric>
#include <set>

#include "size.hpp"
#include "joined_times.hpp"
#include "stretches.hpp"

namespace {
constexpr int64_t shortest = 1000;  // of a piece, in nanoseconds
constexpr uint64_t most_pieces = 1 << 17;
constexpr int64_t share_that_moves_little = 50;  // of the span

// Those of one loop that one part makes, one after the other.
struct Row {
  Chunk *const *first;
  size_t count;
  size_t size() const { return count; }
  Chunk *operator[](size_t at) const { return first[at]; }
};

// In the order in which they begin.
class Rows {
 public:
  template <class Chunks>
  Rows(Chunks &chunks, size_t first);
  size_t size() const { return begins.size() - 1; }
  Row operator[](size_t at) const { return {all.data() + begins[at], begins[at + 1] - begins[at]}; }
  template <class Take>
  void each(const Take &take) const {
    for (size_t i = 0; i < size(); i++) take((*this)[i]);
  }

 private:
  std::vector<Chunk *> all;
  std::vector<uint32_t> begins{0};  // of each, and the end
};

// The number of each chunk's row. Between two chunks of a row its thread runs others only in a region that the first
// one has met, and such a chunk is written by itself.
template <class Chunks>
std::vector<uint32_t> rows_of(Chunks &chunks, size_t first) {
  struct Last {
    const Task *part = nullptr;
    const Loop *loop = nullptr;
    uint32_t row = 0;
  };
  std::vector<uint32_t> found;
  std::vector<Last> last;  // by the thread
  uint32_t count = 0;
  for (size_t i = first; i < chunks.size(); i++) {
    const Chunk &chunk = chunks[i];
    if (!chunk.is_task) continue;
    if (chunk.thread >= last.size()) last.resize(chunk.thread + 1u);
    Last &own = last[chunk.thread];
    if (own.part != chunk.part || own.loop != chunk.loop) own = {chunk.part, chunk.loop, count++};
    found.push_back(own.row);
  }
  return found;
}

template <class Chunks>
Rows::Rows(Chunks &chunks, size_t first) {
  std::vector<uint32_t> rows = rows_of(chunks, first);
  for (uint32_t row : rows) {
    if (row + 1 == begins.size()) begins.push_back(0);
    begins[row + 1]++;
  }
  std::partial_sum(begins.begin(), begins.end(), begins.begin());
  std::vector<uint32_t> next(begins);
  all.resize(rows.size());
  for (size_t i = first, number = 0; i < chunks.size(); i++)
    if (chunks[i].is_task) all[next[rows[number++]]++] = &chunks[i];
}

uint64_t pieces_of(const Chunk &chunk, int64_t least) {
  auto most = static_cast<uint64_t>(std::max<int64_t>(chunk.cost / least, 1));
  return std::clamp<uint64_t>(chunk.turns, 1, std::min<uint64_t>(most, UINT32_MAX));
}

// What a row is written as: a chunk that is shorter than the least piece is one with those after it.
template <class Take>
void cut(const Row &row, int64_t least, const Take &take) {
  for (size_t from = 0, to = 1; from < row.size(); from = to++) {
    int64_t cost = row[from]->cost;
    for (; cost < least && to < row.size() && !row[to]->makes_tasks && !row[from]->makes_tasks; to++) {
      if (row[to]->cost >= least) break;
      cost += row[to]->cost;
    }
    take(from, to, cost);
  }
}

class Chooser {
 public:
  explicit Chooser(WholeProgram &of) : whole(of), rows(of.chunk_list, 0) {}
  int64_t least_for(uint64_t most, int64_t from) const;  // of which so many pieces are at most; 0 where none is
  uint64_t pieces(int64_t least) const;
  int64_t longer(int64_t least) const;  // all loops one after the other, than with a piece for each turn
  uint64_t tasks() const;  // that are no pieces
  void remark(int64_t least, bool moves_span);

 private:
  WholeProgram &whole;
  Rows rows;
  int64_t longest(int64_t least) const;  // pieces of all loops, added up
};

uint64_t Chooser::pieces(int64_t least) const {
  uint64_t sum = 0;
  rows.each([&](const Row &row) {
    cut(row, least, [&](size_t from, size_t to, int64_t) { sum += to - from > 1 ? 1 : pieces_of(*row[from], least); });
  });
  return sum;
}

int64_t Chooser::least_for(uint64_t most, int64_t from) const {
  if (pieces(INT64_MAX) > most) return 0;
  int64_t too_short = from, fits = from;
  while (pieces(fits) > most) too_short = std::exchange(fits, 2 * fits);
  while (fits - too_short > fits / 64 + 1) {
    int64_t middle = too_short + (fits - too_short) / 2;
    (pieces(middle) > most ? too_short : fits) = middle;
  }
  return fits;
}

int64_t Chooser::longest(int64_t least) const {
  std::vector<int64_t> found(whole.loop_list.size());
  rows.each([&](const Row &row) {
    int64_t &most = found[row[0]->loop->number];
    cut(row, least, [&](size_t from, size_t to, int64_t cost) {
      auto pieces = static_cast<int64_t>(to - from > 1 ? 1 : pieces_of(*row[from], least));
      most = std::max(most, cost / pieces);
    });
  });
  return std::accumulate(found.begin(), found.end(), int64_t{0});
}

int64_t Chooser::longer(int64_t least) const { return longest(least) - longest(1); }

uint64_t Chooser::tasks() const {
  uint64_t count = whole.before ? whole.before->tasks : 0;
  for (const Task &t : whole.tasks) count += t.parent && !t.pieces;
  return count;
}

void join(Chunk &chunk, Chunk &more) {
  Step &work = chunk.task->steps.back();
  for (const Step &step : more.task->steps) work.add_cost(step.cost());
  more.task->steps.clear();
  more.task->parent = nullptr;
  more.task->pieces = 0;
}

// The steps of a part, without the creation of what is no task any more.
void leave_out_joined(Task &part, JoinedTimes &times) {
  ShortList<Step> steps;
  unsigned segment = 0;
  for (const Step &step : part.steps) {
    bool is_left = step.kind != Kind::Create || step.child()->parent;
    if (is_left) steps.push_back(step);
    else part.segment--, part.children--, times.leave_out(part, segment);
    segment += ends_a_segment(step);
  }
  part.steps = std::move(steps);
}

// The chunks' tasks become pieces.
JoinedTimes write(const Rows &rows, int64_t least, bool timed, const OffTimes &off) {
  JoinedTimes times(timed, off);
  std::set<Task *> parts;
  rows.each([&](const Row &row) {
    Task &part = *row[0]->task->parent;
    cut(row, least, [&](size_t from, size_t to, int64_t) {
      Chunk &first = *row[from];
      if (to - from > 1 && first.task->steps.empty()) first.task->steps.push_back(Step::work(0));
      for (size_t i = from + 1; i < to; i++) join(first, *row[i]), times.join(*first.task, *row[i]->task);
      if (to - from > 1) parts.insert(&part);
      first.task->pieces = to - from > 1 ? 1 : static_cast<uint32_t>(pieces_of(first, least));
    });
  });
  for (Task *part : parts) leave_out_joined(*part, times);
  return times;
}

void Chooser::remark(int64_t least, bool moves_span) {
  rows.each([&](const Row &row) {
    cut(row, least, [&](size_t from, size_t to, int64_t) {
      uint64_t pieces = to - from > 1 ? 1 : pieces_of(*row[from], least), turns = 0;
      for (size_t i = from; i < to; i++) turns += row[i]->turns;
      const void *code = row[from]->loop->code;
      whole.pieces += pieces;
      if (pieces > 1) whole.remarks[Remark::EqualTurns].add(code);
      if (moves_span && pieces < turns) whole.remarks[Remark::TurnsTogether].add(code);
    });
  });
}

// A least piece with which the text fits the ten commands, where that is as good as any.
int64_t for_the_commands(const Chooser &chooser, int64_t from, int64_t span) {
  uint64_t others = chooser.tasks();
  int64_t least = others < most_tasks ? chooser.least_for(most_tasks - others, from) : 0;
  return least && chooser.longer(least) <= span / share_that_moves_little ? least : 0;
}

// Of a loop that the compiler divides into chunks only the first of each thread is reported.
uint64_t all_turns(const Chunk &chunk) {
  const Loop &loop = *chunk.loop;
  if (chunk.makes_tasks) return 1;  // regions in it
  if (!loop.reported || loop.reported >= loop.count) return chunk.turns;
  double of_one = static_cast<double>(loop.count) / static_cast<double>(loop.reported);
  return static_cast<uint64_t>(static_cast<double>(chunk.turns) * of_one + 0.5);
}

size_t released_chunks(const WholeProgram &whole) { return whole.before ? whole.before->chunks.back() : 0; }

int64_t finest_span(WholeProgram &whole) {
  put_finest_pieces(whole, released_chunks(whole), whole.chunk_list.size());
  RootEnds ends = whole.before ? whole.before->finest : RootEnds();
  span_of(whole);
  ends.add(*whole.root);
  return ends.span();
}
}  // namespace

void measure_chunks(WholeProgram &whole, size_t first, size_t end) {
  for (size_t i = first; i < end; i++) {
    Chunk &chunk = whole.chunk_list[i];
    chunk.part = chunk.task->parent;
    chunk.cost = chunk.task->total;
    chunk.is_task = chunk.part && chunk.task->pieces;
    chunk.makes_tasks = chunk.task->children;
    chunk.turns = all_turns(chunk);
    if (chunk.is_task) whole.in_loops += own_cost(*chunk.task);
  }
}

void put_finest_pieces(WholeProgram &whole, size_t first, size_t end) {
  for (size_t i = first; i < end; i++)
    if (const Chunk &chunk = whole.chunk_list[i]; chunk.is_task)
      chunk.task->pieces = static_cast<uint32_t>(pieces_of(chunk, 1));
}

void choose_pieces(WholeProgram &whole, int64_t unit) {
  if (whole.chunk_list.empty()) return;
  Chooser chooser(whole);
  int64_t span = finest_span(whole), from = std::max(shortest, unit);
  int64_t least = for_the_commands(chooser, from, span);
  if (!least) least = chooser.least_for(most_pieces, from);
  if (!least) least = INT64_MAX;
  bool moves_span = chooser.longer(least) > span / share_that_moves_little;
  chooser.remark(least, moves_span);
  JoinedTimes joined = write(Rows(whole.chunk_list, released_chunks(whole)), least, whole.has_events, whole.off);
  joined.apply(whole.events);
  joined.apply(whole.off);
  add_up(whole);
  whole.least_piece = least;
}

void put_pieces(WholeProgram &whole, size_t stretch, const std::vector<Task *> &tasks, EventList &events) {
  const std::vector<size_t> &ends = whole.before->chunks;
  std::vector<Chunk> own;
  for (size_t i = stretch ? ends[stretch - 1] : 0; i < ends[stretch]; i++) {
    Chunk &chunk = own.emplace_back(whole.chunk_list[i]);
    if (!chunk.is_task) continue;
    chunk.task = tasks[chunk.at];
    chunk.is_task = chunk.task->parent;  // else, in a damaged log, its part stands nowhere
  }
  if (own.empty()) return;
  JoinedTimes joined = write(Rows(own, 0), whole.least_piece, !events.empty(), whole.off);
  joined.apply(events);
  joined.apply(whole.off);
}
