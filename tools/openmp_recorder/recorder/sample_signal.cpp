#include "sample_signal.hpp"

#include <stdlib.h>

#include <atomic>
#include <cstring>

#include "callers.hpp"
#include "systems.hpp"

namespace {
std::atomic<int> taken{0};

Systems<decltype(&sigaction)> set_action("sigaction");
Systems<decltype(&signal)> set_handler("signal");
Systems<decltype(&sigfillset)> fill_set("sigfillset");
FIND_AT_LOAD(set_action)
FIND_AT_LOAD(set_handler)
FIND_AT_LOAD(fill_set)

// Never by the name `sigaction`, which is the function below: it would give the signal up.
int systems_action(int number, const struct sigaction *action, struct sigaction *before) {
  return set_action.get()(number, action, before);
}

// What was sent and has not come yet goes with it, so that the program's handler gets nothing that is not its own.
// Many threads may set an action at once: only the one that resets the number ends the timers.
// To ignore a signal discards what is pending. It is done twice, since timers send until they are all gone.
void give_up(int number) {
  if (!taken.compare_exchange_strong(number, 0)) return;
  struct sigaction ignored {
  }, normal{};
  ignored.sa_handler = SIG_IGN;
  normal.sa_handler = SIG_DFL;
  systems_action(number, &ignored, nullptr);
  stop_sampling();
  systems_action(number, &ignored, nullptr);
  systems_action(number, &normal, nullptr);
}

bool is_asked() {
  auto is = [](const char *name, const char *word) {
    const char *value = getenv(name);
    return value && !strcmp(value, word);
  };
  return getenv("SPANPROF_OUT") && !is("SPANPROF_SAMPLES", "0") && !is("SPANPROF_RECORD", "0");
}

// A library that a runtime opens later is not in front of libc: it would never see the program claim the signal. Its
// own code may not name `sigaction` to find that out, since there the name means libc's too.
bool stands_before_the_system() { return recorder_code.has(dlsym(RTLD_DEFAULT, "sigaction")); }
}  // namespace

// 0 before the signal is taken and once it is given up; read in handlers too.
int sample_signal() { return taken.load(std::memory_order_relaxed); }

// While the library is loaded, before the program can start a thread or block signals, and after `find_recorder`.
bool take_sample_signal(OnSignal handler) {
  if (!is_asked() || !stands_before_the_system()) return false;
  for (int number = SIGRTMAX - 1; number > SIGRTMIN; number--) {
    struct sigaction now {};
    // A signal that has a handler, or is ignored, has its use for somebody.
    if (systems_action(number, nullptr, &now) || now.sa_handler != SIG_DFL || now.sa_flags & SA_SIGINFO) continue;
    struct sigaction action {};
    action.sa_sigaction = handler;
    // The program must see no call fail with EINTR. Where it gave the thread a stack for signals, the handler runs
    // there.
    action.sa_flags = SA_SIGINFO | SA_RESTART | SA_ONSTACK;
    if (systems_action(number, &action, nullptr)) return false;
    taken = number;
    return true;
  }
  return false;
}

ENTRY int sigaction(int number, const struct sigaction *action, struct sigaction *before) {
  // A program that only asks must find the default action: to it the signal is unused.
  if (number != sample_signal() || !number) return systems_action(number, action, before);
  if (action) give_up(number);
  if (action) return systems_action(number, action, before);
  if (before) *before = {};
  return 0;
}

ENTRY sighandler_t signal(int number, sighandler_t handler) {
  if (number && number == sample_signal()) give_up(number);
  return set_handler.get()(number, handler);
}

ENTRY int sigfillset(sigset_t *set) {
  int failed = fill_set.get()(set);
  if (!failed && sample_signal()) sigdelset(set, sample_signal());
  return failed;
}
