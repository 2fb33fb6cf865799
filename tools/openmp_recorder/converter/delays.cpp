#include "delays.hpp"

#include <algorithm>

#include "json.hpp"

namespace {
constexpr int64_t a_start = 50000;  // nanoseconds: a thread starts a region's code in less, or goes on after it

// When what they wait for had ended, of segments that begin a thread's own code or follow a group.
class Ready {
 public:
  Ready(const Region &all, Region &written, const Events &times)
      : region(all), part(written), events(times), ready(times.times.size() + 1) {}
  bool find();  // whether that is known
  int64_t operator[](size_t segment) const { return ready[segment]; }  // counted from the part's first

 private:
  const Region &region;
  Region &part;
  const Events &events;
  std::vector<int64_t> ready;  // by segment, and of one that is not there, as in a damaged log

  size_t place(const Task &t, unsigned segment) const {
    size_t at = number_in_text(t, segment, region) - size_t{events.first_segment()};
    return std::min(at, events.times.size());
  }
  int64_t end(size_t at) const { return at < events.times.size() ? events.times[at].end : 0; }
  int64_t end(const Task &t, unsigned segment) const { return end(place(t, segment)); }
  int64_t own_end(const Task &t) const;
  std::vector<Task *> met_by();
  void follow(const Task &owner);
};

// Of its last segment, or of the last of the pieces that stand for it.
int64_t Ready::own_end(const Task &t) const {
  if (t.pieces < 2) return end(t, t.segment);
  return end(place(t, 0) + 2 * size_t{t.pieces - 1});
}

// The tasks that met regions. Each task gets the end of all below it.
std::vector<Task *> Ready::met_by() {
  std::vector<Task *> out;
  for (Task &t : part.tasks) t.end_below = 0;
  for (auto t = part.tasks.rbegin(); t != part.tasks.rend(); ++t) {
    if (t->first_number == none || !t->parent) continue;
    t->end_below = std::max(t->end_below, own_end(*t));
    t->parent->end_below = std::max(t->parent->end_below, t->end_below);
    if (t->part && (out.empty() || out.back() != t->parent)) out.push_back(t->parent);
  }
  std::sort(out.begin(), out.end());
  out.erase(std::unique(out.begin(), out.end()), out.end());
  return out;
}

void Ready::follow(const Task &owner) {
  std::vector<int64_t> groups;  // that are open: when the last task in each ended
  unsigned segment = 0;
  for (const Step &step : owner.steps) {
    if (step.kind == Kind::GroupBegin) groups.push_back(0);
    if (step.kind == Kind::Create) {
      const Task &child = *step.child();
      if (!groups.empty()) groups.back() = std::max(groups.back(), child.end_below);
      if (child.part) ready[place(child, 0)] = end(owner, segment);
    }
    if (step.kind == Kind::GroupEnd) {
      int64_t last = groups.back();
      groups.pop_back();
      if (!groups.empty()) groups.back() = std::max(groups.back(), last);
      ready[place(owner, segment + 1)] = std::max(last, end(owner, segment));
    }
    segment += ends_a_segment(step);
  }
}

bool Ready::find() {
  for (const Task &t : part.tasks)
    if (t.part && !t.items.empty()) return false;
  for (const Task *owner : met_by()) follow(*owner);
  return true;
}
}  // namespace

void Delays::add(uint32_t kind, int64_t delay) {
  Sums &of_kind = sums[kind];
  of_kind.all += delay;
  of_kind.starting += std::min(delay, a_start);
}

void Delays::take(const Region &region, Region &part, const Events &events,
                  const std::vector<SegmentTable::Around> &around) {
  if (is_left) add(kind_left, events.times[0].begin - ready_left);
  is_left = false;
  Ready ready(region, part, events);
  are_known = are_known && ready.find();
  if (!are_known) return;
  for (const SegmentTable::Around &one : around) {
    size_t at = one.segment - events.first_segment();
    if (at + 1 == events.times.size()) {
      is_left = true;
      kind_left = one.kind;
      ready_left = ready[at];
    } else {
      add(one.kind, events.times[at].begin - ready[at]);
    }
  }
}

void Delays::put(const Events &events, Object &line) {
  if (!are_known) return;
  if (is_left) add(kind_left, events.times.back().begin - ready_left);
  std::string list;
  for (auto &[kind, sum] : sums)
    list += (list.empty() ? "[" : ", [") + std::to_string(kind) + ", " + std::to_string(sum.all) + ", " +
            std::to_string(sum.starting) + "]";
  line.put_bare("delays", "[" + list + "]");
}
