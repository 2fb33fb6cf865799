#include "thread_log.hpp"

#include <errno.h>
#include <fcntl.h>
#include <sys/mman.h>
#include <unistd.h>

#include <algorithm>
#include <cstring>
#include <string>
#include <vector>

#include "log_head.hpp"
#include "system_calls.hpp"

namespace {
constexpr int64_t chunks_together = 10000;  // nanoseconds: what begins sooner after a chunk is part of it
constexpr int64_t longest_unlooked = 1000000;  // nanoseconds: what a hypervisor takes shows at the next look

// Its room is taken from the disk here, so no record can fail.
// Without this allocation a write to the mapping on a full disk would kill the program by SIGBUS.
char *map_block(const std::string &path) {
  int file = open(path.c_str(), O_RDWR | O_CREAT | O_CLOEXEC, 0666);
  if (file < 0) return nullptr;
  void *pages = MAP_FAILED;
  errno = is_allowed(log_form::block_bytes) ? posix_fallocate(file, 0, log_form::block_bytes) : EFBIG;
  // Populated, so that no record waits for a page, which would be no code's time.
  if (!errno) pages = mmap(nullptr, log_form::block_bytes, PROT_READ | PROT_WRITE, MAP_SHARED | MAP_POPULATE, file, 0);
  int why = errno;
  close(file);
  errno = why;
  return pages == MAP_FAILED ? nullptr : static_cast<char *>(pages);
}

// A handler of the program's may interrupt the write, which then goes on (EINTR).
log_form::Stopped append(const std::string &path, const char *bytes, uint64_t at) {
  if (!is_allowed(at + log_form::block_bytes)) return log_form::Stopped::Full;
  int file = open(path.c_str(), O_WRONLY | O_CREAT | O_CLOEXEC, 0666);
  if (file < 0) return log_form::Stopped::Unwritable;
  uint64_t done = 0;
  ssize_t more = 0;
  while (done < log_form::block_bytes) {
    // Where the library is preloaded this is its own `pwrite`, which passes calls of the recorder on.
    more = pwrite(file, bytes + done, log_form::block_bytes - done, static_cast<off_t>(at + done));
    if (more > 0) done += static_cast<uint64_t>(more);
    else if (more == 0 || errno != EINTR) break;
  }
  log_form::Stopped why = more == 0 ? log_form::Stopped::Full : why_unwritten();
  close(file);
  return done == log_form::block_bytes ? log_form::Stopped::Not : why;
}

// Records that go nowhere, to see how long one takes.
// Its calls must fit into one block: where it is full, `grow` would map a file for it.
class Scratch : public ThreadLog {
 public:
  Scratch() : ThreadLog(0), room(log_form::block_bytes) {
    next = room.data();
    end = next + room.size() - log_form::kept_free;
  }
  // Between its records, in ticks or nanoseconds of the processor; where something else was done too, it is more.
  std::vector<int64_t> apart() const { return costs_by_processor ? between_long_ones() : before_short_ones(); }

 private:
  std::vector<int64_t> between_long_ones() const {
    constexpr std::size_t bytes = log_form::bytes_by_processor;
    std::vector<int64_t> out;
    for (const char *at = room.data() + log_form::bytes_by_wall; at + bytes < next; at += bytes)
      out.push_back(number_at(at + bytes) - number_at(at));
    return out;
  }
  std::vector<int64_t> before_short_ones() const {
    std::vector<int64_t> out;
    for (const char *at = room.data(); at < next;) {
      auto first = static_cast<uint64_t>(number_at(at));
      bool is_short = first & log_form::short_bit;
      if (is_short) out.push_back(first >> log_form::other_bits & (log_form::ticks_too_long - 1));
      at += is_short ? sizeof first : log_form::bytes_by_wall;
    }
    return out;
  }
  static int64_t number_at(const char *place) {
    int64_t number;
    std::memcpy(&number, place, sizeof number);
    return number;
  }
  std::vector<char> room;
};
}  // namespace

ThreadLog::ThreadLog(unsigned of)
    : number(of), near_ticks(static_cast<uint64_t>(chunks_together / nanoseconds_of_tick())), both(costs_by_processor) {
  kept.begin_thread();
  begin_clocks();
}

// Where another library has its own restartable sequences all logs go back to the wall clock, from any time on.
void ThreadLog::begin_clocks() {
  if (switches_are_known && !kept.is_known()) lose_switches();
  auto apart = kept.is_known() ? longest_unlooked : far_apart;
  far_ticks = static_cast<uint64_t>(static_cast<double>(apart) / nanoseconds_of_tick());
  both = BothClocks(costs_by_processor, kept.is_known() ? 0 : far_apart);
  looked = left = held_since = 0;
}

void ThreadLog::begin_thread() {
  // The counts of context switches and the processor's clock of the thread before mean nothing here.
  kept.begin_thread();
  begin_clocks();
  lock = {};
  is_slow = true;
  begin_chunk(0);
}

// What was in the block is in the file before it is cleared: who converts the log after a kill finds it in one of both.
bool ThreadLog::write_block() {
  log_form::Stopped why = append(this_log().folder + log_form::thread_file + std::to_string(number), block, written);
  if (why != log_form::Stopped::Not) {
    stop_log(why);
    return false;
  }
  // One cleared word empties the block: readers stop at the first record without a time.
  clear(block);
  written += log_form::block_bytes;
  return true;
}

// The program may be about to read errno, since callbacks come in between its own calls of the system.
bool ThreadLog::grow() {
  KeepErrno kept;
  is_slow = true;
  if (is_stopped()) return false;
  if (block && !write_block()) return false;
  if (!block)
    block = map_block(this_log().folder + log_form::thread_file + std::to_string(number) + log_form::last_block);
  if (!block) {
    stop_log(why_unwritten());
    return false;
  }
  next = block;
  end = block + log_form::block_bytes - log_form::kept_free;
  // A block is read from its first record on, so that one must name its task.
  current = nobody;
  return true;
}

// `at` is the last store, as a release: while it is 0 the record is not there, however much of the rest is.
void ThreadLog::put_long(const log_form::RawRecord &raw, uint32_t bytes) {
  auto *record = reinterpret_cast<log_form::RawRecord *>(next);
  next += bytes;
  clear(next);
  record->task = raw.task;
  record->other = raw.other;
  record->word = raw.word;
  __atomic_store_n(&record->at, raw.at, __ATOMIC_RELEASE);
  follow(raw);
}

// What short records that come next leave out.
void ThreadLog::follow(const log_form::RawRecord &raw) {
  RecordKind kind = log_form::record_kind_of(raw.word);
  // Items have an address where others have the time, so they must not become the base of the next difference.
  if (kind == RecordKind::Items) return;
  last = raw.at;
  renew_left();
  if (kind == RecordKind::Schedule) current = raw.other;
  if (names_task(kind)) current = raw.task;
}

// So no short record reaches beyond the next look at the clocks, or has a difference that does not fit.
void ThreadLog::renew_left() {
  uint64_t passed = last - looked;
  left = std::min(passed < far_ticks ? far_ticks - passed : 0, log_form::ticks_too_long);
}

Times ThreadLog::times(const Moment &now) const {
  return {kept.is_known() ? wall_time() : wall_time_at(now.at), now.processor};
}

// The word is set before the counter is read, so that no switch between them and the next look is missed.
void ThreadLog::read_anew(Moment &now) {
  if (!kept.is_known()) return;
  if (kept.is_of_others()) {
    kept.give_up();
    return begin_clocks();
  }
  kept.set();
  now.at = read_ticks();
}

// Since the clocks were read before the wait, the thread was off as long as it waited, and what it was off for longer
// is of the lock, but no more than it had that.
std::optional<Passed> ThreadLog::passed_since_lock(const Moment &now, bool has_stood) {
  int64_t got = wall_time_at(std::exchange(held_since, 0));
  int64_t lasted = wall_time_at(now.at) - got, waited = got - wall_time_at(lock.asked.at);
  std::optional<Passed> passed = both.at_record(times(now));
  if (!passed || has_stood) return {};
  int64_t off = std::clamp(passed->off() - waited, int64_t{0}, std::max(lasted, int64_t{0}));
  return Passed{passed->slept, lasted, lasted - off, passed->taken, std::min(off, passed->put_off)};
}

// Where switches are known, clocks that agree say nothing.
void ThreadLog::compare_clocks(Moment &now) {
  bool has_stood = kept.stands();
  read_anew(now);
  look(now.at);
  is_slow = is_slow || !costs_by_processor;
  std::optional<Passed> passed = held_since ? passed_since_lock(now, has_stood) : both.at_record(times(now));
  if (passed && (passed->is_off() || !kept.is_known())) put_all_passed(now, *passed);
}

// Where the thread both slept and lost its processor, each by itself.
void ThreadLog::put_all_passed(const Moment &now, Passed passed) {
  is_slow = true;
  if (passed.slept && passed.taken && passed.put_off < passed.off()) {
    passed.wall -= passed.put_off;
    passed.taken = false;
    put_passed(now, {false, passed.put_off, 0, true});
  }
  put_passed(now, passed);
}

void ThreadLog::put_passed(const Moment &now, const Passed &passed) {
  auto processor = static_cast<uint64_t>(passed.processor);
  uint64_t wall = std::min(static_cast<uint64_t>(passed.wall), log_form::code_mask);
  unsigned off = (passed.slept ? log_form::slept : 0U) | (passed.taken ? log_form::taken : 0U);
  put(now, RecordKind::Passed, static_cast<uint32_t>(processor), static_cast<uint32_t>(processor >> 32), wall, off);
}

void ThreadLog::look_back(const Look &from, const Look &until, const Moment &now) {
  kept.set();
  look(now.at);
  both.begin_at(look_now());
  if (Passed passed = passed_between(from, until); passed.wall >= far_apart) put_all_passed(now, passed);
}

void ThreadLog::wait_begins(Moment &now) {
  if (kept.is_known()) return look_at_clocks(now);
  if (!costs_by_processor && now.at - looked < far_ticks) return;
  look(now.at);
  both.wait_begins(times(now));
}

// Others wait for the lock, so where switches are known the clocks are read once it is let go: until then the word says
// whether the thread was switched out since. The last look is set so far back that the next record looks.
void ThreadLog::wait_ends(Moment &now) {
  if (kept.is_known()) {
    if (kept.stands()) return;
    kept.set();
    now.at = held_since = read_ticks();
    looked = now.at - far_ticks;
    return;
  }
  if (!costs_by_processor && now.at - looked < far_ticks) return;
  look(now.at);
  both.wait_ends(times(now));
}

void ThreadLog::get_lock(Moment now, uint32_t name, unsigned kind) {
  wait_ends(now);
  if (lock.name != name) lock = {nullptr, name, kind, now};
  lock.got = now;
  left = 0;  // so the next record tells it first
  if (costs_by_processor) put_got();
}

// Its task is none that the thread is in, so only the first record of a block must be long.
bool ThreadLog::put_short_of_lock(uint64_t at, unsigned what, uint32_t other) {
  uint64_t ticks = at - last;
  if (costs_by_processor || next == block || ticks >= log_form::ticks_too_long || !has_room()) return false;
  put_short(ticks, what, other);
  renew_left();
  return true;
}

void ThreadLog::put_got() {
  Moment got = std::exchange(lock.got, {});
  auto waited = static_cast<float>(std::max<int64_t>(static_cast<int64_t>(got.at - lock.asked.at), 0));
  uint32_t wait = log_form::wait_of(waited);
  if (costs_by_processor) tell_stood_still(static_cast<uint64_t>(got.processor - lock.asked.processor));
  unsigned slot = LikeRecords::slot(RecordKind::LockGot, lock.place);
  bool is_like = like.has(RecordKind::LockGot, lock.place, lock.key());
  if (is_like && put_short_of_lock(got.at, log_form::slots + slot, wait)) return;
  put(got, RecordKind::LockGot, lock.name, wait, reinterpret_cast<uint64_t>(lock.place), lock.kind);
  like.add(RecordKind::LockGot, lock.place, lock.key());
}

// Where the thread lost its processor while it had the lock, that is told first.
void ThreadLog::leave_lock(const Release &when, uint32_t name, unsigned kind) {
  bool is_last = lock.got.at && lock.name == name;
  put_lock();
  Moment now = when.now;
  if (!when.has_stood) look_at_clocks(now);
  if (!is_last || !put_short_of_lock(now.at, log_form::lock_left, 0)) put(now, RecordKind::LockLeft, name, 0, 0, kind);
  if (kept.is_known()) look_at_clocks(now);
  if (is_slow) put_slow(now);
}

uint64_t time_since(const Moment &began) {
  Moment now = moment_now();
  return costs_by_processor ? static_cast<uint64_t>(now.processor - began.processor) : now.at - began.at;
}

// By the wall clock: while another program had the processor it is no work of the recorder, but code of the program
// that was put off. The kernel often does that where the clocks are read, which is a call of it. Where switches are not
// known, only a call that looked at both clocks as it began can say how much of its time that was.
uint64_t ThreadLog::own_time_since(const Moment &began) const {
  constexpr int64_t around_a_look = 1000;  // nanoseconds: what the call takes before its clock is read
  uint64_t took = time_since(began);
  if (kept.is_known()) {
    if (kept.stands()) return took;
    double off = static_cast<double>(both.off_since_look()) / nanoseconds_of_tick();
    return took - std::min(took, static_cast<uint64_t>(off));
  }
  if (costs_by_processor || looked != began.at || took < near_ticks) return took;
  int64_t worked = processor_time() - both.processor_at_look() + around_a_look;
  return std::min(took, static_cast<uint64_t>(static_cast<double>(worked) / nanoseconds_of_tick()));
}

// A sample that the thread took in between is in it: the converter leaves that out once (`is_left_out`).
void ThreadLog::put_slow(const Moment &began) {
  is_slow = false;
  tell_stood_still(own_time_since(began));
}

void ThreadLog::tell_stood_still(uint64_t took) {
  put(moment_now(), RecordKind::StoodStill, static_cast<uint32_t>(took), static_cast<uint32_t>(took >> 32), 0, 0);
}

// The median of many, so that what else the machine does is in none of it.
int64_t time_of_record(void (*call)()) {
  constexpr int calls = 1000;
  Scratch scratch;
  // The callback finds a log, so it makes no folder and no file.
  thread_log = &scratch;
  for (int i = 0; i < calls; i++) call();
  thread_log = nullptr;
  std::vector<int64_t> apart = scratch.apart();
  auto middle = apart.begin() + static_cast<std::ptrdiff_t>(apart.size() / 2);
  std::nth_element(apart.begin(), middle, apart.end());
  double in_nanoseconds = costs_by_processor ? 1 : nanoseconds_of_tick();
  return static_cast<int64_t>(static_cast<double>(*middle) * in_nanoseconds + 0.5);
}
