#include "samples.hpp"

#include <fcntl.h>
#include <pthread.h>
#include <sys/mman.h>
#include <sys/syscall.h>
#include <time.h>
#include <unistd.h>

#include <algorithm>
#include <cstring>
#include <mutex>
#include <new>
#include <utility>
#include <vector>

#include "callers.hpp"
#include "clocks.hpp"
#include "log_head.hpp"
#include "own_stack.hpp"
#include "registers.hpp"
#include "sample_signal.hpp"
#include "system_calls.hpp"

#if defined(__x86_64__)
__thread Samples *own_samples = nullptr;  // no handler reads it

namespace {
using log_form::RawSample;
using log_form::window_bytes;

constexpr long apart = 2000000;  // nanoseconds of the processor; kernels look at their ticks, often each 4 ms
constexpr size_t largest = sizeof(RawSample) + (log_form::most_frames + log_form::general_registers) * sizeof(uint64_t);

// In a handler too: calls of the kernel alone. The room is taken from the disk, so that no write can fail.
char *map_window(const char *path, uint64_t number) {
  int file = open(path, O_RDWR | O_CREAT | O_CLOEXEC, 0666);
  if (file < 0) return nullptr;
  auto at = static_cast<off_t>(number * window_bytes);
  void *pages = MAP_FAILED;
  if (is_allowed((number + 1) * window_bytes) && !posix_fallocate(file, at, window_bytes))
    pages = mmap(nullptr, window_bytes, PROT_READ | PROT_WRITE, MAP_SHARED, file, at);
  close(file);
  return pages == MAP_FAILED ? nullptr : static_cast<char *>(pages);
}

char *map_memory() {
  void *pages = mmap(nullptr, window_bytes, PROT_READ | PROT_WRITE, MAP_PRIVATE | MAP_ANONYMOUS, -1, 0);
  return pages == MAP_FAILED ? nullptr : static_cast<char *>(pages);
}

// The system's functions would link another library, or be those of the program.
int make_timer(Samples *of) {
  sigevent event{};
  event.sigev_notify = SIGEV_THREAD_ID;
  event.sigev_signo = sample_signal();
  // The handler finds its object here and not in thread-local storage. A signal may arrive after the timer is gone,
  // so the object is never freed.
  event.sigev_value.sival_ptr = of;
  event._sigev_un._tid = gettid();
  int timer = -1;
  if (syscall(SYS_timer_create, CLOCK_THREAD_CPUTIME_ID, &event, &timer)) return -1;
  itimerspec each{{0, apart}, {0, apart}};
  syscall(SYS_timer_settime, timer, 0, &each, nullptr);
  return timer;
}

struct Listed {
  std::mutex adding;
  std::vector<Samples *> all;  // of all threads, so that their timers can be ended
};

Listed &listed() {  // first used when this library is loaded, and never destroyed
  static auto &known = *new Listed;
  return known;
}

// Held for the list alone. The handler takes no lock, so a signal in between cannot deadlock.
Samples *new_samples() {
  auto *made = new Samples;
  std::lock_guard<std::mutex> guard(listed().adding);
  listed().all.push_back(made);
  return made;
}

// A thread of LLVM's runtime ends without a word. One of gcc's has its log left too (`Leaving`): whichever destructor
// comes first ends the samples, and the other finds none.
struct AtEnd {
  ~AtEnd() {
    if (own_samples) own_samples->end_thread();
  }
};
// The destructor runs once the object was touched in this thread, which `begin_thread` does; no handler may be first.
thread_local AtEnd at_end;
}  // namespace

void Samples::begin_file(const std::string &name) {
  if (name.size() >= sizeof path) return;
  // A signal must not find a window that is half copied, or unmapped.
  Busy busy(*this);
  char *memory = window;
  window = map_window(name.c_str(), 0);
  if (window && memory) std::memcpy(window, memory, used);
  else used = 0;
  if (memory) munmap(memory, window_bytes);
  std::memcpy(path, name.c_str(), name.size() + 1);
  is_closed = !window;
  each = 1;
}

void Samples::begin_thread() {
  KeepErrno kept;
  own_samples = this;
  (void)&at_end;
  // The program may have claimed the signal since: then it is not ours to send.
  if (timer >= 0 || !sample_signal()) return;
  if (!window && !is_closed) window = map_memory();
  stack = own_stack();
  lowest = std::exchange(stack.lowest, 0);
  // Last: the first signal may come at once, and needs window and stack.
  timer = make_timer(this);
}

// The kernel may have reused the number of a timer that was deleted: so it is deleted by one thread alone.
void Samples::end_timer() {
  int known = timer.exchange(-1);
  if (known >= 0) syscall(SYS_timer_delete, known);
}

// The timer first. A signal that is on its way still finds the object, which is never freed.
void Samples::end_thread() {
  end_timer();
  own_samples = nullptr;
}

// Where memory alone has them each second one goes, so that those left are evenly apart.
// In the handler. It moves bytes within the window, and needs no other memory.
void Samples::keep_half() {
  size_t kept = 0, number = 0;
  for (size_t at = 0; at < used;) {
    size_t bytes = reinterpret_cast<RawSample *>(window + at)->bytes();
    if (number++ % 2) {
      std::memmove(window + kept, window + at, bytes);
      reinterpret_cast<RawSample *>(window + kept)->stands_for *= 2;
      kept += bytes;
    }
    at += bytes;
  }
  std::memset(window + kept, 0, used - kept);
  used = kept;
  each *= 2;
}

// Asked once `is_busy` stands: a handler may have ended the samples after `may_write` saw a window.
bool Samples::make_room() {
  if (!window) return false;
  if (used + largest <= window_bytes) return true;
  // Full windows stay in the file; only the last one is mapped, so memory does not grow with the run.
  if (!has_file()) return keep_half(), true;
  munmap(window, window_bytes);
  // Where that fails `is_over` ends the samples of this thread; a handler can print nothing.
  window = map_window(path, ++windows);
  used = 0;
  is_closed = !window;
  return window;
}

// Signals that come while a sample is being written are lost, and their time with them.
bool Samples::is_to_write(const siginfo_t &signal) {
  if (!may_write()) return false;
  since += static_cast<unsigned>(signal.si_overrun) + 1;
  return since >= each;
}

RawSample &Samples::sample_here(const ucontext_t &context) {
  frames::State state = registers_of(context);
  uint64_t top = state.values[frames::stack_pointer];
  // Reading between the stack pointer and the thread's end is safe only while it runs on the stack that it began with.
  bool is_own = lowest <= top && top < stack.end;  // else the program gave the thread another one
  auto *sample = reinterpret_cast<RawSample *>(window + used);
  frames::Stack readable = is_own ? frames::Stack{top, stack.end} : frames::Stack{};
  sample->frames = static_cast<uint8_t>(frames::walk(state, readable, sample->calls(), log_form::most_frames));
  return *sample;
}

// The time is written last: where it is 0 there is no sample.
// The window behind is zero, as the kernel or `keep_half` left it: so the sample's end needs no mark.
void Samples::publish(RawSample &sample, const Began &began) {
  sample.wall = began.wall;
  sample.took = static_cast<uint16_t>(std::min<int64_t>(Began::own_time() - began.own, UINT16_MAX));
  used += sample.bytes();
  __atomic_store_n(&sample.at, read_time_stamp(After::Itself), __ATOMIC_RELEASE);
}

// The order matters: ask, stand in the way, read the clock, find room, write, and publish. The usage may be anywhere.
void Samples::take(const siginfo_t &signal, const ucontext_t &context) {
  // Nothing may touch the window before.
  if (!is_to_write(signal)) return;
  Busy busy(*this);
  Began began;
  note_usage();
  if (!make_room()) return;
  RawSample &sample = sample_here(context);
  sample.slept = 0;
  frames::State state = registers_of(context);
  std::copy_n(state.values.begin(), sample.registers(), sample.calls() + sample.frames);
  sample.stands_for = static_cast<uint32_t>(since * (apart / 1000));
  since = 0;
  publish(sample, began);
}

// In the place of the recorder's own functions stands that of the system which they called.
// Not in the handler, but possibly in one of the program's, which may have interrupted `take` or another `put_wait`.
void Samples::put_wait(const void *function, int64_t nanoseconds) {
  if (!may_write()) return;
  KeepErrno kept;
  Busy busy(*this);
  Began began;
  ucontext_t context;
  if (getcontext(&context) || !make_room()) return;
  RawSample &sample = sample_here(context);
  uint64_t *calls = sample.calls(), *end = calls + sample.frames;
  auto is_own = [](uint64_t code) { return recorder_code.has(reinterpret_cast<const void *>(code)); };
  // The innermost call is this function itself, so at least one goes and the system's function has room.
  uint64_t *rest = std::find_if_not(calls, end, is_own);
  sample.frames = static_cast<uint8_t>(1 + std::move(rest, end, calls + 1) - (calls + 1));
  calls[0] = reinterpret_cast<uint64_t>(function);
  sample.slept = 1;
  sample.stands_for = static_cast<uint32_t>(nanoseconds / 1000);
  publish(sample, began);
}

void sample_thread(ThreadLog &log, const std::string &folder) {
  if (!sample_signal()) return;
  if (!log.samples) log.samples = own_samples ? own_samples : new_samples();
  if (!log.samples->has_file()) log.samples->begin_file(folder + log_form::samples_file + std::to_string(log.number));
  log.samples->begin_thread();
}

void leave_samples(ThreadLog &log) {
  if (log.samples) log.samples->end_thread();
}

namespace {
// In the child of a fork, which has no timers: their numbers may be those of others here.
void forget_samples() {
  own_samples = nullptr;
  new (&listed()) Listed;  // another thread may have held the lock when the process forked
}
}  // namespace

// Timers of a thread that ended since are gone already.
void stop_sampling() {
  std::lock_guard<std::mutex> guard(listed().adding);
  for (Samples *one : listed().all) one->end_timer();
}

namespace {
void on_signal(int, siginfo_t *signal, void *context) {
  KeepErrno kept;
  // Others may send the signal by `kill`, with no pointer in it that could be followed.
  if (signal->si_code != SI_TIMER) return;
  static_cast<Samples *>(signal->si_value.sival_ptr)->take(*signal, *static_cast<ucontext_t *>(context));
}

// What the program does before it meets OpenMP is sampled too, of its first thread.
__attribute__((constructor)) void library_is_loaded() {
  // Preloaded, this runs before the program's own code; opened later, `take_sample_signal` refuses.
  // By the range of its code it is seen that it is preloaded, and waits in its own functions are left out of samples.
  find_recorder();
  if (!frames::are_known() || !take_sample_signal(on_signal)) return;
  pthread_atfork(nullptr, nullptr, forget_samples);
  if (is_first_thread()) new_samples()->begin_thread();
}
}  // namespace
#else
__thread Samples *own_samples = nullptr;
void Samples::put_wait(const void *, int64_t) {}
void sample_thread(ThreadLog &, const std::string &) {}
void leave_samples(ThreadLog &) {}
void stop_sampling() {}
#endif
