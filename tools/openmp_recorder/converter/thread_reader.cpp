#include "thread_reader.hpp"

#include <algorithm>
#include <cstring>

namespace {
using log_form::block_bytes;

std::string first_bytes(FILE *file, uint64_t from, size_t count) {
  std::string bytes(count, 0);
  if (fseek(file, static_cast<long>(from), SEEK_SET) || fread(bytes.data(), 1, count, file) != count) return {};
  rewind(file);
  return bytes;
}

bool is_of_a_lock(RecordKind kind) { return kind == RecordKind::LockGot || kind == RecordKind::LockLeft; }

// Of such a record all is told as it stands: most are.
bool is_plain(RecordKind kind) {
  return kind == RecordKind::Create || kind == RecordKind::Schedule || kind == RecordKind::SyncBegin ||
         kind == RecordKind::SyncEnd;
}

// Records of code that is divided among threads: no other task runs there.
bool divides(RecordKind kind) {
  return kind == RecordKind::Divided || kind == RecordKind::Chunk || kind == RecordKind::DividedEnd;
}
}  // namespace

ThreadReader::ThreadReader(const std::string &path, unsigned worker, const log_form::Head &head,
                           const LoggedPaths *listed, std::vector<Sample> of_samples)
    : Records(worker),
      file(fopen(path.c_str(), "re")),
      last(fopen((path + log_form::last_block).c_str(), "re")),
      by_processor(head.costs == log_form::Costs::Processor),
      leaves_out(head.costs == log_form::Costs::Own),
      in_a_record(head.in_a_record),
      time(head),
      paths(listed),
      buffer(block_bytes),
      looked_at(head),
      samples(std::move(of_samples)) {
  if (!file || fseek(file.get(), 0, SEEK_END)) return;
  left = static_cast<uint64_t>(ftell(file.get())) / block_bytes * block_bytes;
  rewind(file.get());
  // Killed before the block was cleared that it had written.
  constexpr size_t bytes = 16;
  if (left && last && first_bytes(file.get(), left - block_bytes, bytes) == first_bytes(last.get(), 0, bytes))
    last.reset();
}

void ThreadReader::refuse(const std::string &why) const {
  std::string name = log_form::thread_file + std::to_string(log.worker) + (is_full ? "" : log_form::last_block);
  uint64_t byte = is_full ? before + at : at;
  throw DamagedLog(name.substr(1) + " is damaged at byte " + std::to_string(byte) + ": " + why);
}

// The next block, where there is one. One that is full has records up to its end.
bool ThreadReader::fill() {
  if (is_full && at < block_bytes - log_form::kept_free) refuse("records are missing");
  before += is_full ? block_bytes : 0;
  is_full = left;
  std::unique_ptr<FILE, Close> &from = left ? file : last;
  at = filled = 0;
  if (!from) return false;
  filled = fread(buffer.data(), 1, buffer.size(), from.get());
  if (left) left -= block_bytes;
  else last.reset();
  return filled;
}

// The record at this place of the block, and its bytes; 0 where there is none.
size_t ThreadReader::read_here() {
  log_form::ShortRecord first;
  if (filled - at < sizeof first) return 0;
  std::memcpy(&first, buffer.data() + at, sizeof first);
  if (!(first & log_form::short_bit)) return first ? read_long() : 0;
  read_short(first);
  return sizeof first;
}

size_t ThreadReader::read_long() {
  size_t bytes = by_processor ? log_form::bytes_by_processor : log_form::bytes_by_wall;
  if (filled - at < bytes) return 0;
  std::memcpy(&raw, buffer.data() + at, bytes);
  keep_long();
  if (raw.record_kind() == RecordKind::Nothing) return 0;
  look_at();
  return bytes;
}

void ThreadReader::look_at() {
  try {
    looked_at.look_at(raw.record, raw.processor, raw.wide());
  } catch (const DamagedLog &damage) {
    refuse(damage.what());
  }
  if (uint64_t path = raw.path(); path && !(paths && paths->has(path))) refuse("its call path is not listed");
}

// What it is like was looked at with the long record before, so only its time is new.
void ThreadReader::read_short(log_form::ShortRecord record) {
  if (by_processor) refuse("it is shorter than this clock's");
  ticks += record >> log_form::other_bits & (log_form::ticks_too_long - 1);
  unsigned what = record >> (log_form::other_bits + log_form::short_ticks) & ((1U << log_form::what_bits) - 1);
  auto other = static_cast<uint32_t>(record);
  Like like{log_form::make_word(0, static_cast<unsigned>(RecordKind::Schedule), what), current};
  if (what == log_form::lock_left) like = got;
  if (what >= log_form::slots) like = liked[what - log_form::slots];
  if (!like.word) refuse("no record before it is like it");
  raw.record = {ticks, names_task(log_form::record_kind_of(like.word)) ? current : like.task, other, like.word};
  if (what < log_form::lock_left) current = other;
  if (!looked_at.takes(ticks) || raw.record_kind() == RecordKind::LockGot) look_at();
}

// What short records leave out.
void ThreadReader::keep_long() {
  if (raw.record_kind() == RecordKind::Items) return;
  ticks = raw.record.at;
  if (raw.record_kind() == RecordKind::Schedule) current = raw.record.other;
  if (!has_slot(raw.record_kind())) return;
  if (names_task(raw.record_kind())) current = raw.record.task;
  liked[log_form::slot_of(raw.code(), static_cast<unsigned>(raw.record_kind()))] = {raw.record.word, raw.record.task};
}

// One record; none where the thread has written no more.
bool ThreadReader::read() {
  for (;;) {
    if (size_t bytes = read_here()) return at += bytes;
    if (!fill()) return false;
  }
}

// Where the program was killed among them, those that are there.
void ThreadReader::read_items(uint64_t count) {
  auto item = [](uint64_t packed) { return DependItem{packed, packed >> 56}; };
  log.items.clear();
  while (log.items.size() < count && read() && raw.record_kind() == RecordKind::Items) {
    log.items.push_back(item(raw.record.at));
    if (raw.detail() == 2) log.items.push_back(item(raw.wide()));
  }
}

bool ThreadReader::is_in_a_region() const {
  return std::any_of(teams.begin(), teams.end(), [](const Team &team) { return !team.is_initial; });
}

void ThreadReader::begin_region() {
  bool is_outermost = !(raw.detail() & is_runtimes) && !is_in_a_region();
  log.regions.push_back(
      {raw.record.other, is_outermost, time.wall(raw.record.at), 0, by_processor ? -raw.processor : 0});
}

void ThreadReader::end_region() {
  for (size_t i = log.regions.size(); i-- > 0;) {
    RegionTime &own = log.regions[i];
    if (own.region != raw.record.other || own.end) continue;
    own.end = std::max(time.wall(raw.record.at), own.begin);
    if (by_processor) own.processor += raw.processor;
    return;
  }
}

// The thread's own clock stands still while it waits; what the processor's went then is told apart.
void ThreadReader::get_lock() {
  int64_t waited = time.nanoseconds(log_form::ticks_waited(raw.record.other));
  if (!by_processor) log.stood_still += waited;
  auto kind = static_cast<int>(raw.detail());
  log.locks.get({raw.record.task, kind, raw.place(), cost_clock() - log.stood_still, waited, reported});
  log.stood_still += in_a_record;
  got = {log_form::make_word(0, static_cast<unsigned>(RecordKind::LockLeft), raw.detail()), raw.record.task};
}

void ThreadReader::leave_lock() {
  uint32_t region = teams.empty() ? 0 : teams.back().region;
  log.locks.leave(raw.record.task, region, cost_clock() - log.stood_still, reported);
  log.stood_still += in_a_record;
}

Passed ThreadReader::passed() const {
  return {(raw.detail() & log_form::slept) != 0, static_cast<int64_t>(raw.code()), static_cast<int64_t>(raw.wide()),
          (raw.detail() & log_form::taken) != 0};
}

// What others took of the thread's processor is no time of its code.
void ThreadReader::leave_out(const Passed &passed) {
  if (leaves_out && passed.preempted()) log.stood_still += passed.off();
}

// Whether the record is one for the reader of runs.
bool ThreadReader::take() {
  switch (raw.record_kind()) {
    case RecordKind::Items: return false;
    case RecordKind::StoodStill:
      log.stood_still += by_processor ? static_cast<int64_t>(raw.wide()) : time.nanoseconds(raw.wide());
      slow_until = raw.record.at;
      slow_since = slow_until - std::min(slow_until, raw.wide());
      return false;
    case RecordKind::Passed: leave_out(passed()); return true;
    case RecordKind::LockGot: get_lock(); return raw.detail() == order_of_turns;
    case RecordKind::LockLeft: leave_lock(); return raw.detail() == order_of_turns;
    case RecordKind::ParallelBegin: begin_region(); return true;
    case RecordKind::ParallelEnd: end_region(); return true;
    case RecordKind::ImplicitBegin:
      log.has_initial_task |= (raw.detail() & is_initial) != 0;
      teams.push_back({raw.record.other, (raw.detail() & is_initial) != 0});
      return true;
    case RecordKind::ImplicitEnd:
      if (!teams.empty()) teams.pop_back();
      return true;
    default: return true;
  }
}

void ThreadReader::fill_record() {
  record.wall = time.wall(raw.record.at);
  record.at = log.last = by_processor ? raw.processor : record.wall;
  record.order = raw.record.at;
  record.stood_still = log.stood_still - log.told_still;
  log.told_still = log.stood_still;
  record.task = raw.record.task;
  record.other = raw.record.other;
  record.path = static_cast<uint32_t>(raw.path());
  record.code = record.path ? reinterpret_cast<uint64_t>(paths->creating(record.path)) : raw.code();
  record.kind = static_cast<uint8_t>(raw.record_kind());
  record.detail = raw.detail();
}

const Record &ThreadReader::tell_plain() {
  fill_record();
  log.stood_still += in_a_record;
  reported++;
  return record;
}

const Record &ThreadReader::tell() {
  fill_record();
  if (raw.record_kind() == RecordKind::Passed) return record.passed = passed(), record;
  if (is_of_a_lock(raw.record_kind())) return record;
  log.stood_still += in_a_record;
  reported += !divides(raw.record_kind());
  if (raw.record_kind() == RecordKind::Dependences)
    record.other = 0, read_items(record.code), record.code = log.items.size();
  return record;
}

// Whether that time is no code's anyway: the recorder's own, or of the wait for the lock of the record that comes next.
bool ThreadReader::is_left_out(uint64_t tick) const {
  if (slow_since <= tick && tick <= slow_until) return true;
  uint64_t before = raw.record.at - tick;
  return raw.record_kind() == RecordKind::LockGot && tick <= raw.record.at &&
         static_cast<double>(before) <= log_form::ticks_waited(raw.record.other);
}

// Those from before the thread's first record come after it, which tells what ran then.
const Record &ThreadReader::tell_sample() {
  const Sample &one = samples[sampled++];
  log.stood_still += by_processor || record.kind == 0 || is_left_out(one.order) ? 0 : one.took;
  record.order = std::max(record.order, one.order);
  record.wall = std::max(record.wall, time.wall(record.order));
  record.stood_still = 0;
  record.task = one.number;
  record.other = one.stands_for;
  record.code = 0;
  record.path = one.stack;
  record.kind = static_cast<uint8_t>(RecordKind::Sample);
  record.detail = one.slept;
  return record;
}

const Record *ThreadReader::next() {
  while (is_read || (is_read = read())) {
    bool has_begun = record.kind,
         is_behind = raw.record_kind() != RecordKind::Items && raw.record_kind() != RecordKind::StoodStill;
    if (has_begun && is_behind && sampled < samples.size() && samples[sampled].order < raw.record.at)
      return &tell_sample();
    is_read = false;
    if (is_plain(raw.record_kind())) return &tell_plain();
    if (take()) return &tell();
  }
  return record.kind && sampled < samples.size() ? &tell_sample() : nullptr;
}
