// Turns of a loop that wait for each other (`ordered`): they are tasks next to the parts of their region, with `depend`
// for what waits for what. A turn is pieces, each up to where it waits or lets others go on.
#include <omp-tools.h>

#include <algorithm>

#include "reader.hpp"

namespace {
constexpr uint64_t beyond_addresses = uint64_t{1} << 55;  // of any program
constexpr unsigned most_waited_for = 28;  // turns by one piece: spanprof itself takes 32 items
constexpr int64_t at_once = 1000;  // nanoseconds between waits that are one
constexpr int64_t woken = 20000;  // that it takes to see that a wait is over

Step *last_work(Task &t) { return t.steps.empty() || t.steps.back().kind != Kind::Work ? nullptr : &t.steps.back(); }

int64_t last_cost(Task &t) {
  const Step *work = last_work(t);
  return work ? work->cost() : 0;
}

Item item_of(uint32_t location, ompt_dependence_type_t type) { return {location, static_cast<uint64_t>(type)}; }

// What the turns of a loop do before they wait: the median of those that found no wait, and else what a turn without
// waits has more than the others have after theirs.
int64_t usual_cost(const Loop &loop) {
  std::vector<int64_t> known;
  for (const TurnWait &wait : loop.waits)
    if (wait.is_none) known.push_back(wait.most);
  if (known.empty()) return loop.unwaited == INT64_MAX ? 0 : std::max<int64_t>(loop.unwaited - loop.inside, 0);
  auto middle = known.begin() + static_cast<std::ptrdiff_t>(known.size() / 2);
  std::nth_element(known.begin(), middle, known.end());
  return *middle;
}
}  // namespace

uint32_t Reader::made_location() { return run.whole->locations->number(beyond_addresses + made_locations++); }

// The record's items are the turn's numbers in the loops.
uint32_t Reader::location_of_turn(const Loop &loop) {
  std::vector<uint64_t> turn;
  for (uint64_t i = 0; i < r->code; i++) turn.push_back(log->items[r->other + i].address);
  auto [known, is_new] = turn_locations.emplace(std::pair(&loop, std::move(turn)), 0);
  if (is_new) known->second = made_location();
  return known->second;
}

// From the first such record of a loop on. A part that has made tasks, or is in a group, stays as it is.
bool Reader::has_turns_apart(ImplicitTask &own) {
  if (own.turns) return true;
  Task *t = current_part(), *chunk = own.chunk;
  if (!chunk || chunk->children || t->children > 1 || t->open_groups > 1) return false;
  end_chunk(own);
  take_chunk_out(own, *t);
  own.turns = std::make_unique<Turns>();
  own.turns->around = made_location();
  t->items.push_back(item_of(own.turns->around, ompt_dependence_type_out));
  int64_t cost = last_cost(*chunk);
  chunk->steps.clear();
  chunk->parent = nullptr;
  chunk->pieces = 0;
  begin_piece(own, true);
  Task *piece = current_part();
  if (cost) piece->steps.push_back(Step::work(cost));
  run.whole->off.move(own.off, *chunk, *piece, 0);
  if (run.whole->has_events) run.whole->events[piece->started].at = run.whole->events[chunk->started].at;
  own.turns->since = own.since;
  return true;
}

void Reader::begin_piece(ImplicitTask &own, bool of_next_turn) {
  Task *before = current_part();
  end(before);
  before->is_ended = true;
  Task *piece = add_part(current().back(), before->region);
  piece->part = false;
  piece->pieces = 1;
  piece->of_loop = true;
  piece->origin = Origin::Turns;
  piece->code = own.loop->code;
  if (of_next_turn) {
    own.turns->turn = made_location();
    own.turns->waited = false;
  }
  piece->items.push_back(item_of(own.turns->around, ompt_dependence_type_in));
  piece->items.push_back(item_of(own.turns->turn, ompt_dependence_type_inout));
  own.turns->since = r->wall;
  own.turns->after_a_wait = false;
}

// What follows in this turn, if anything does, is taken as the beginning of the thread's next one.
bool Reader::turn_done() {
  ImplicitTask *own = in_loop();
  if (!own || !has_turns_apart(*own)) return false;
  uint32_t turn = location_of_turn(*own->loop);
  Task *piece = current_part();
  piece->items.push_back(item_of(turn, ompt_dependence_type_out));
  charge(piece);
  int64_t &shortest = own->turns->waited ? own->loop->inside : own->loop->unwaited;
  shortest = std::min(shortest, last_cost(*piece));
  done[turn] = r->wall;
  begin_piece(*own, true);
  if (auto other = awaited.find(turn); other != awaited.end()) ended_by(*piece, other->second);
  return true;
}

// The piece before the one that has just begun: what follows it may have been reported to another thread before.
void Reader::ended_by(const Task &piece, int64_t at) {
  if (!run.whole->has_events) return;
  int64_t &end = run.whole->events[end_before_last()].at;
  end = std::max(std::min(end, at), run.whole->events[piece.started].at);
}

// The wait is over now; at the earliest it was when the other turn was done.
bool Reader::turn_awaited() {
  ImplicitTask *own = in_loop();
  if (!own || !has_turns_apart(*own)) return false;
  uint32_t turn = location_of_turn(*own->loop);
  Task *piece = current_part();
  charge(piece);
  int64_t cost = last_cost(*piece);
  auto other = done.find(turn);
  int64_t ended_at = other == done.end() ? 0 : other->second;
  bool is_one_wait = own->turns->after_a_wait && cost < at_once && ended_at <= own->turns->since;
  if (is_one_wait && piece->items.size() < most_waited_for) {
    piece->items.push_back(item_of(turn, ompt_dependence_type_in));
    return true;
  }
  int64_t waited = std::clamp<int64_t>(ended_at - own->turns->since, 0, cost);
  bool was_there = r->wall - own->turns->since <= cost + woken;  // on its processor all the time
  bool is_none = was_there && r->wall - ended_at > woken;
  if (!ended_at) awaited.emplace(turn, r->wall);
  begin_piece(*own, false);
  own->loop->waits.push_back({piece, cost - waited, cost, is_none, end_before_last()});
  find(current().back())->items.push_back(item_of(turn, ompt_dependence_type_in));
  own->turns->waited = own->turns->after_a_wait = true;
  return true;
}

// The event with which the piece before this one ended, which has just begun.
size_t Reader::end_before_last() const {
  constexpr size_t end_and_start = 2;
  return run.whole->has_events ? run.whole->events.size() - end_and_start : 0;
}

// `ordered` without `depend`: the turns come here one after the other. The thread's clock stood still while it waited.
void Reader::order_got() {
  ImplicitTask *own = in_loop();
  if (!own || !has_turns_apart(*own)) return;
  if (!own->loop->order) own->loop->order = made_location();
  begin_piece(*own, false);
  find(current().back())->items.push_back(item_of(own->loop->order, ompt_dependence_type_inout));
  if (own->loop->in_order) own->loop->in_order->released = r->wall;
  own->loop->in_order = own->turns.get();
}

// It is reported after it happened.
void Reader::order_left() {
  ImplicitTask *own = in_loop();
  if (!own || !own->turns) return;
  const Task *piece = current_part();
  begin_piece(*own, true);
  int64_t released = std::exchange(own->turns->released, 0);
  if (own->loop->in_order == own->turns.get()) own->loop->in_order = nullptr;
  else if (released) ended_by(*piece, released);
}

// What follows the loop waits for the thread's turns.
void Reader::end_turns(ImplicitTask &own) {
  Task *last = current_part();
  end(last);
  last->is_ended = true;
  Task *part = add_part(current().back(), last->region);
  part->items.push_back(item_of(own.turns->around, ompt_dependence_type_inout));
  if (own.loop->in_order == own.turns.get()) own.loop->in_order = nullptr;
  own.turns.reset();
}

// The thread idles while it waits.
void Reader::end_earlier(const TurnWait &wait, int64_t by) {
  if (!run.whole->has_events) return;
  EventList &events = run.whole->events;
  int64_t &end = events[wait.ended].at;
  end = std::max(end - by, events[wait.piece->started].at);
}

void Reader::take_waits_off(Loop &loop) {
  int64_t usual = usual_cost(loop);
  for (const TurnWait &wait : loop.waits) {
    int64_t cost = wait.is_none ? wait.most : std::clamp(usual, wait.least, wait.most);
    Step *work = last_work(*wait.piece);
    if (cost == wait.most || !work) continue;
    work->add_cost(cost - wait.most);
    end_earlier(wait, wait.most - cost);
    wait.piece->region->cost -= wait.most - cost;
    run.whole->remarks[Remark::WaitsForTurns].add(loop.code);
  }
  loop.waits = std::vector<TurnWait>();
}
