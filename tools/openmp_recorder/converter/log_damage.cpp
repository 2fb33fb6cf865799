#include "log_damage.hpp"

#include <algorithm>

namespace {
using log_form::Head;
using log_form::Pair;

constexpr double least_tick = 0.01, most_tick = 1000;  // nanoseconds
constexpr int64_t most_in_a_record = 1000000;
constexpr double may_go_back = 1e6;  // nanoseconds, where processors' counters differ
constexpr uint64_t most_ticks = uint64_t{1} << 60;  // in the longest time there are fewer
constexpr int64_t latest_wall = int64_t{1} << 61;

bool is_wall(int64_t time) { return time >= 0 && time < latest_wall; }

// A pair that is there comes after the first one.
bool follows(const Pair &later, const Pair &first) {
  if (!later.wall && !later.ticks) return true;
  return is_wall(later.wall) && later.wall >= first.wall && later.wall - first.wall < longest_time &&
         later.ticks >= first.ticks && later.ticks - first.ticks < most_ticks;
}

double tick_of(const Pair &later, const Pair &first) {
  if (later.ticks <= first.ticks) return 1;
  return static_cast<double>(later.wall - first.wall) / static_cast<double>(later.ticks - first.ticks);
}

bool is_tick(const Pair &later, const Pair &first) {
  double tick = tick_of(later, first);
  return tick >= least_tick && tick <= most_tick;
}

bool has_known_words(const Head &head) {
  bool by_processor = head.costs == log_form::Costs::Processor;
  uint32_t bytes = by_processor ? log_form::bytes_by_processor : log_form::bytes_by_wall;
  return head.costs <= log_form::Costs::Own && head.record_bytes == bytes &&
         head.counter <= log_form::Counter::TimeStamp && head.how_ended <= log_form::HowEnded::InsideARegion &&
         head.stopped <= log_form::Stopped::End;
}

// The child of a fork begins after its parent has read the clocks.
int64_t latest_start(const Head &head) {
  if (!head.is_child) return head.first.wall;
  return head.end.wall ? head.end.wall : latest_wall;
}

bool has_times(const Head &head) {
  if (!is_wall(head.first.wall) || !is_wall(head.time_of_day)) return false;
  if (head.program_start < -latest_wall || head.program_start > latest_start(head)) return false;
  if (head.in_a_record < 0 || head.in_a_record > most_in_a_record) return false;
  if (head.end_processor < 0 || head.end_processor >= longest_time) return false;
  for (const Pair &later : {head.second, head.end, head.stop})
    if (!follows(later, head.first)) return false;
  if (head.counter != log_form::Counter::TimeStamp) return true;
  return is_tick(head.second, head.first) && is_tick(head.end, head.first);
}
}  // namespace

void look_at_head(const Head &head) {
  if (!has_known_words(head) || !has_times(head)) throw DamagedLog("its head is damaged");
}

RecordsLookedAt::RecordsLookedAt(const Head &head)
    : first(head.first.ticks), last(first), by_processor(head.costs == log_form::Costs::Processor) {
  double tick = head.counter == log_form::Counter::TimeStamp ? tick_of(head.second, head.first) : 1;
  back = static_cast<uint64_t>(may_go_back / tick);
  most = std::min(most_ticks, static_cast<uint64_t>(static_cast<double>(longest_time) / tick));
}

void RecordsLookedAt::look_at_times(uint64_t ticks, int64_t processor) {
  if (ticks + back < first || ticks > first + most) throw DamagedLog("its time is none of this run");
  if (ticks + back < last) throw DamagedLog("its time is before that of the record before it");
  last = ticks;
  if (!by_processor) return;
  if (processor < last_processor - static_cast<int64_t>(may_go_back) || processor > longest_time)
    throw DamagedLog("its processor time is before that of the record before it");
  last_processor = processor;
}

bool RecordsLookedAt::is_length(int64_t time) const {
  return time <= longest_time && time >= -static_cast<int64_t>(back);
}

void RecordsLookedAt::add_wait(float ticks) {
  bool is_time = ticks >= 0 && ticks <= static_cast<float>(most);
  if (!is_time || (waited += static_cast<uint64_t>(ticks)) > most)
    throw DamagedLog("it waited for longer than the run");
}

// No thread stands still for longer than it runs.
void RecordsLookedAt::add_up(int64_t stands_still) {
  if (!is_length(stands_still) || (stood_still += stands_still) > longest_time)
    throw DamagedLog("the recorder took longer than the run");
}

void RecordsLookedAt::look_at(const log_form::RawRecord &record, int64_t processor, uint64_t wide) {
  auto kind = static_cast<RecordKind>(record.word >> log_form::code_bits & 255);
  if (kind >= RecordKind::Sample) throw DamagedLog("it is of no kind");
  if (kind == RecordKind::Items) return;  // an address is in the place of the time
  if (kind == RecordKind::StoodStill) return add_up(static_cast<int64_t>(wide));  // reported at its end, maybe later
  look_at_times(record.at, processor);
  if (kind == RecordKind::LockGot) add_wait(log_form::ticks_waited(record.other));
  if (kind == RecordKind::Passed && !is_length(static_cast<int64_t>(wide)))
    throw DamagedLog("more processor time passed than the run has");
}
