#include "log_head.hpp"

#include <errno.h>
#include <fcntl.h>
#include <sys/file.h>
#include <sys/mman.h>
#include <sys/stat.h>
#include <unistd.h>

#include <atomic>
#include <cstring>
#include <mutex>
#include <new>
#include <utility>
#include <vector>

#include "known_stacks.hpp"
#include "log_modules.hpp"
#include "own_stack.hpp"
#include "path_numbers.hpp"
#include "process_usage.hpp"
#include "samples.hpp"
#include "notice.hpp"
#include "system_calls.hpp"

namespace {
using log_form::Head;
using log_form::Stopped;

constexpr std::size_t cache_line = 64, file_bytes = sizeof(Head) + sizeof(log_form::Usage);
constexpr uint32_t numbers_at_once = 1024;
// Counted without an order (relaxed): numbers must differ, and say nothing of what came first.
alignas(cache_line) std::atomic<uint64_t> next_number{1};
std::atomic<uint32_t> next_region{1}, next_thread{0};
std::atomic<int64_t> open_regions{0};  // of the program, that are not inside another

// The runtime says goodbye after the destructors of globals have run, so these are never destroyed.
Beginning &beginning = *new Beginning;
// Lists of samples are locked inside of it, never the other way round.
std::mutex &making = *new std::mutex;  // of the folder, and of threads' logs
std::vector<ThreadLog *> &of_ended = *new std::vector<ThreadLog *>;  // threads
// Null until the first record; from then on mapped for good, since threads may write to it while the process ends.
Head *head = nullptr;
int locked = -1;  // the file of the head, which is locked
bool is_made = false;
// Between `leave_log` and its counterpart this thread has no log and makes none: it would be mapped in both processes.
__thread bool forks = false;  // the thread does
__thread ThreadLog *left_log = nullptr;
log_form::Pair first{}, second{};
double tick = 1;  // nanoseconds
int64_t in_a_record = 0;
std::atomic<log_form::Costs> costs{log_form::Costs::Wall};
uint64_t beginning_took = 0;  // and is not told yet

// The file stays open and locked as long as the process lives: who converts the log sees by that whether it is whole.
Head *map_head(const std::string &path) {
  int file = open(path.c_str(), O_RDWR | O_CREAT | O_EXCL | O_CLOEXEC, 0666);
  if (file < 0) return nullptr;
  flock(file, LOCK_SH);
  locked = file;
  void *page = MAP_FAILED;
  errno = posix_fallocate(file, 0, file_bytes);
  if (!errno) page = mmap(nullptr, file_bytes, PROT_READ | PROT_WRITE, MAP_SHARED, file, 0);
  return page == MAP_FAILED ? nullptr : static_cast<Head *>(page);
}

// Of the parent, which would be taken for one that runs as long as the child does: the file's map holds it as well. The
// program may have closed the file, and use its number for another one.
void release_head_lock() {
  if (head) munmap(std::exchange(head, nullptr), file_bytes);
  struct stat open_there, own;
  std::string path = beginning.folder + log_form::head_file;
  bool is_own = locked >= 0 && !fstat(locked, &open_there) && !stat(path.c_str(), &own) &&
                open_there.st_dev == own.st_dev && open_there.st_ino == own.st_ino;
  if (is_own) close(locked);
  locked = -1;
}

void fill_head() {
  head->version = log_form::version;
  head->record_bytes = costs_by_processor ? log_form::bytes_by_processor : log_form::bytes_by_wall;
  head->counter = by_time_stamp ? log_form::Counter::TimeStamp : log_form::Counter::ClockGettime;
  head->costs = costs;
  head->first = first;
  head->second = second;
  head->time_of_day = time_of_day() - (wall_time() - first.wall);
  head->program_start = beginning.program_start;
  head->in_a_record = in_a_record;
  head->process = static_cast<uint32_t>(getpid());
  head->is_child = beginning.is_child;
  head->unseen = beginning.unseen;
  ssize_t length = readlink("/proc/self/exe", head->program, sizeof head->program - 1);
  if (length < 0) head->program[0] = 0;
  // Last, so that a head which a kill left half filled is none.
  std::memcpy(head->magic, log_form::magic, sizeof head->magic);
}

std::string recording_of(const std::string &log) { return log.substr(0, log.rfind('/')); }

bool make_log() {
  // The log's own folder must be new: two processes never write to one.
  mkdir(recording_of(beginning.folder).c_str(), 0777);
  if (mkdir(beginning.folder.c_str(), 0777)) return false;
  head = map_head(beginning.folder + log_form::head_file);
  if (!head) return false;
  fill_head();
  write_modules(beginning.folder);
  if (beginning.call_paths) begin_paths(beginning.folder);
  return true;
}

log_form::Costs costs_asked() {
  if (costs_by_processor) return log_form::Costs::Processor;
  return switches_are_known ? log_form::Costs::Own : log_form::Costs::Wall;
}

// Ticks of a millisecond: less than a ten-thousandth is wrong, where the program ends before it can say more.
void measure_ticks() {
  constexpr int64_t apart = 1000000;
  first = read_pair();
  if (!by_time_stamp) return;
  while (wall_time() - first.wall < apart) {
  }
  second = read_pair();
  tick = static_cast<double>(second.wall - first.wall) / static_cast<double>(second.ticks - first.ticks);
}

const char *word_of(Stopped why) {
  switch (why) {
    case Stopped::Full: return "the disk is full, and what follows is not recorded";
    case Stopped::Numbers: return "there are more tasks than numbers, and what follows is not recorded";
    default: return "the log cannot be written, and what follows is not recorded";
  }
}

}  // namespace

alignas(cache_line) std::atomic<Stopped> log_stopped{Stopped::Not};
std::atomic<uint32_t> only_records{false};
__thread ThreadLog *thread_log = nullptr;

const Beginning &this_log() { return beginning; }
double nanoseconds_of_tick() { return tick; }

int64_t wall_time_at(uint64_t ticks) {
  return first.wall + static_cast<int64_t>(static_cast<double>(static_cast<int64_t>(ticks - first.ticks)) * tick);
}

void begin_log(const Beginning &how, void (*call)()) {
  beginning = how;
  only_records = by_time_stamp && !costs_by_processor;
  costs = costs_asked();
  // The counter goes on through a fork at the same pace, so the parent's measurement holds.
  if (first.wall) return;  // it is known from before a fork
  measure_ticks();
  in_a_record = time_of_record(call);
}

void mark_unseen(uint32_t more) {
  std::lock_guard<std::mutex> guard(making);
  beginning.unseen |= more;
  if (head) head->unseen |= more;
}

void lose_switches() {
  costs = log_form::Costs::Wall;
  if (head) head->costs = costs;
}

void set_time_of_beginning(uint64_t took) { beginning_took = took; }

// The only way to a log. It allocates, locks and writes files, so from callbacks alone. `making` is the first lock that
// is taken; inside of it come that of the list of samples, or the loader's.
ThreadLog *make_thread_log() {
  if (forks) return nullptr;
  KeepErrno kept;
  std::lock_guard<std::mutex> guard(making);
  // Logs of ended threads go first, so that there are no more logs than threads that ran at once.
  if (!of_ended.empty()) {
    thread_log = of_ended.back();
    of_ended.pop_back();
    thread_log->begin_thread();
    if (beginning.call_paths) thread_log->stacks = new KnownStacks(own_stack());
    sample_thread(*thread_log, beginning.folder);
    return thread_log;
  }
  if (!is_made && !make_log()) {
    stop_log(why_unwritten());
    return nullptr;
  }
  is_made = true;
  thread_log = new ThreadLog(next_thread++);
  thread_log->is_slow = true;
  if (beginning.call_paths) thread_log->stacks = new KnownStacks(own_stack());
  // Under the lock: one thread's log gets it, once.
  if (beginning_took) thread_log->tell_stood_still(std::exchange(beginning_took, 0));
  sample_thread(*thread_log, beginning.folder);
  return thread_log;
}

// By the processor's clock, which each thread begins anew, it stays the thread's.
void leave_thread_log() {
  // First of all no log: a callback of this thread that still comes must not write to one that another thread owns.
  ThreadLog *log = std::exchange(thread_log, nullptr);
  leave_samples(*log);
  if (costs_by_processor) return;
  delete std::exchange(log->stacks, nullptr);
  std::lock_guard<std::mutex> guard(making);
  of_ended.push_back(log);
}

void take_numbers(OwnNumbers &of) {
  uint64_t begin = next_number.fetch_add(numbers_at_once, std::memory_order_relaxed);
  // 64 bits count on beyond the end, so no number comes twice, however many threads ask.
  if (begin + numbers_at_once > UINT32_MAX) return stop_log(Stopped::Numbers);
  of.last = static_cast<uint32_t>(begin) - 1;
  of.end = of.last + numbers_at_once;
}

uint32_t new_region() { return next_region.fetch_add(1, std::memory_order_relaxed); }

// Any thread, with or without `making`; it takes no lock, since `grow` may call it anywhere.
void stop_log(Stopped why) {
  Stopped before = Stopped::Not;
  // The first reason alone stands in the head. `log_stopped` is set before `only_records` is reset, so a callback that
  // goes the long way finds that recording has stopped.
  if (!log_stopped.compare_exchange_strong(before, why)) return;
  only_records = false;
  if (head) {
    head->stop = read_pair();
    head->stopped = why;
  }
  if (why != Stopped::End) notice(word_of(why));
}

// Other threads may still be in callbacks, so records may follow that are later than this end.
void end_log(log_form::HowEnded how) {
  Moment now = moment_now();
  if (thread_log && !is_stopped()) thread_log->look_at_clocks(now);  // no record may follow
  stop_log(Stopped::End);
  if (!head) return;
  head->end = read_pair();
  head->end_processor = processor_time();
  head->end_thread = thread_log ? thread_log->number : UINT32_MAX;
  head->how_ended = how;
  note_usage();
}

void take_end_back() {
  if (head) head->how_ended = log_form::HowEnded::Not;
  note_usage();
}

// Two threads may write at once: what they write are readings of the same moment.
void note_usage() {
  if (head) *reinterpret_cast<log_form::Usage *>(head + 1) = process_usage();
}

// Of all threads: `exit` asks whether any of them is in a region.
void count_open_region(int more) { open_regions += more; }
bool inside_a_region() { return open_regions > 0; }

// Called by glibc before it forks, in the thread that calls fork, with other threads running.
void leave_log() {
  forks = true;
  left_log = std::exchange(thread_log, nullptr);
}

void go_on_with_log() {
  forks = false;
  thread_log = std::exchange(left_log, nullptr);
}

// The parent's files are mapped here too, and are not written any more.
// One thread runs, and the logs of all others are lost memory: nothing of them is freed, since it may be half changed.
void forget_log() {
  new (&making) std::mutex;  // another thread may have held it when the process forked
  forget_paths();
  release_head_lock();
  thread_log = left_log = nullptr;
  forks = false;
  new (&of_ended) std::vector<ThreadLog *>;
  is_made = false;
  open_regions = 0;
  next_thread = 0;
  log_stopped = Stopped::Not;
}
