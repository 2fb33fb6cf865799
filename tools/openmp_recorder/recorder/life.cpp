#include "life.hpp"

#include <pthread.h>
#include <stdlib.h>
#include <sys/mman.h>
#include <unistd.h>
#include <unwind.h>

#include <atomic>

#include "callers.hpp"
#include "log_head.hpp"
#include "options.hpp"
#include "program_start.hpp"
#include "run_files.hpp"
#include "notice.hpp"

namespace {
struct Life {
  RecordingOptions options;
  Moment runtime_begins;  // what it does from then on, until it has begun, is no code of the program
  Beginning log;
  void (*call)() = nullptr;  // of the recorder, that makes a record
  // That of the log: exit functions are inherited by the child of a fork, and must not end the parent's log there.
  pid_t process = 0;
  std::atomic<bool> ended{false};
  bool ended_by_exit = false;  // with threads in a region: nothing comes after that
  int64_t at_end = 0;  // the processor's clock of the thread that ended it
};

Life *life = nullptr;  // never destroyed: the runtime says goodbye after the destructors of globals have run

std::string program_of(const std::string &process) {
  char path[4096];
  ssize_t length = readlink(("/proc/" + process + "/exe").c_str(), path, sizeof path);
  return length > 0 ? std::string(path, length) : "";
}

// Whether another process of this program started this one, before it came to OpenMP.
bool is_child_of_this_program() {
  std::string own = program_of("self");
  return !own.empty() && own == program_of(std::to_string(getppid()));
}

std::string absolute(const std::string &name) {  // since the program may go to another folder
  char here[4096];
  return name[0] == '/' || !getcwd(here, sizeof here) ? name : std::string(here) + "/" + name;
}

void name_log() {
  life->process = getpid();
  std::string name = name_of_rank(life->options.out), own = name + ".child" + std::to_string(life->process);
  int64_t began = time_of_day() - (wall_time() - life->log.program_start);
  life->log.folder = free_folder(name, own, life->log.is_child, began) + log_form::log_folder;
}

// One thread is left, and locks of the others stay locked for ever: `forget_log` must come before anything that locks.
// glibc has made malloc usable again by now. The child's log is only named here: its first record makes it.
void in_child_of_fork() {
  forget_log();
  life->log.is_child = true;
  life->log.program_start = wall_time();
  life->ended = life->ended_by_exit = false;
  name_log();
  begin_log(life->log, life->call);
}

void say_unseen(uint32_t what) {
  if (life->options.quiet) return;
  if (what & log_form::unseen_detach) notice("gcc's detach is not seen by LLVM's runtime, and the program may crash");
  if (what & log_form::unseen_target)
    notice("gcc's target is run by gcc's own runtime: with nowait or depend the program's results may be wrong");
  if (what & log_form::unseen_runtime) notice("a second libgomp in the process is not recorded");
}

// Also runs where the program never met OpenMP (`life` is null).
void end_of_process() {
  if (life && life->process == getpid()) end_recording();
}

// Threads that are in a region go on while the process ends, and the runtime takes from them what they need before it
// calls the tool's end. What runs after `exit` where no thread is in a region is still recorded. Where several threads
// call `exit`, each takes one of the functions that are to be called there: so there is one of these for each thread.
void on_end_by_exit(int, void *) {
  if (life->process != getpid() || !inside_a_region()) return;
  life->ended_by_exit = true;
  end_recording();
}

// Into a program of C the recorder alone loads libgcc, which ends after LLVM's runtime has freed what its threads need.
// They crash if they meet that before the process is gone, so no page of libgcc may be left to be met then.
void use_unwinder() {
  _Unwind_Backtrace([](_Unwind_Context *, void *) { return _URC_END_OF_STACK; }, nullptr);  // writes to its data
#ifdef MADV_POPULATE_READ
  CodeRange code = code_around(reinterpret_cast<const void *>(_Unwind_Backtrace));
  madvise(reinterpret_cast<void *>(code.first), code.end - code.first, MADV_POPULATE_READ);
#endif
}

// Whether the program shut its runtime down, as `omp_pause_resource_all` does, and went on without it.
bool went_on() {
  constexpr int64_t shut_down = 5000000;  // nanoseconds: of the end of the process at most
  return life && life->process == getpid() && life->ended && processor_time() - life->at_end > shut_down;
}

// The runtime does not call the tool's end where the program ends inside a region.
// Other threads may still run and record; nothing may be freed here. Where the end is written, LLVM's runtime may have
// ended (`use_unwinder`): no call of the system then.
__attribute__((destructor)) void end_of_library() {
  if (life && life->ended_by_exit) return;
  if (went_on()) take_end_back();
  end_of_process();
}
}  // namespace

// LLVM's runtime calls it once, before it calls anything else of the tool; in front of gcc's it runs under the guard of
// a static (`begin_here`). So there is one thread here, and no callback before it has returned.
void runtime_begins() {
  if (life) return;
  life = new Life;
  life->options = read_recording_options();
  // Before the first `moment_now`, which reads the chosen clock.
  choose_clocks(life->options.time_stamp, life->options.processor_clock);
  look_for_switches(life->options.switches && by_time_stamp);
  life->runtime_begins = moment_now();
}

void begin_recording(void (*call)(), uint32_t unseen) {
  if (life->call) return;
  life->call = call;
  life->options.out = absolute(life->options.out);
  life->log.program_start = program_start();
  life->log.is_child = is_child_of_this_program();
  life->log.unseen = unseen;
  life->log.call_paths = life->options.call_paths;
  life->process = getpid();
  name_log();
  begin_log(life->log, life->call);
  use_unwinder();
  if (!life->options.quiet) notice("recording to " + life->log.folder);
  say_unseen(life->log.unseen);
  // Handlers of a child run in the order of registration: those that are registered when the library is loaded
  // (`look_at_start`, `forget_samples`) come before `in_child_of_fork`.
  pthread_atfork(leave_log, go_on_with_log, in_child_of_fork);
  at_quick_exit(end_of_process);
  // Last: all that came before is the recorder's own time.
  set_time_of_beginning(time_since(life->runtime_begins));
}

void report_unseen(uint32_t more) {
  if (!life || __atomic_load_n(&life->log.unseen, __ATOMIC_RELAXED) & more) return;
  if (__atomic_fetch_or(&life->log.unseen, more, __ATOMIC_RELAXED) & more) return;
  mark_unseen(more);
  say_unseen(more);
}

void expect_end_by_this_thread() { on_exit(on_end_by_exit, nullptr); }

// Several threads may come here, by `exit`, the runtime's end and the library's: the first one ends the log.
void end_recording() {
  if (life->ended.exchange(true)) return;
  end_log(inside_a_region() ? log_form::HowEnded::InsideARegion : log_form::HowEnded::ByRuntime);
  life->at_end = processor_time();
}

// Of a child that shares its parent's memory nothing is noted.
void note_usage_at_exit() {
  if (life && life->process == getpid()) note_usage();
}
