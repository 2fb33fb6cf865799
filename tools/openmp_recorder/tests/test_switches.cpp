// The word that says whether a thread has kept its processor.
#include "switches.hpp"

#include <signal.h>
#include <time.h>
#include <unistd.h>

#include <thread>

#include "check.hpp"

namespace {
void sleep_for(long microseconds) {
  timespec time{0, microseconds * 1000};
  nanosleep(&time, nullptr);
}

// Whether this kernel and this glibc clear the word; and then it does not stand any more.
template <class Code>
bool clears(Code code) {
  look_for_switches(true);
  Kept kept;
  kept.begin_thread();
  bool is_known = kept.is_known();
  kept.set();
  code();
  bool is_cleared = !kept.stands();
  switches_are_known = false;
  return is_cleared || !is_known;
}
}  // namespace

TEST(a_thread_that_sleeps_loses_its_processor) {
  EXPECT(clears([] { sleep_for(1000); }), true);
}

TEST(a_signal_counts_as_a_switch) {
  signal(SIGUSR1, [](int) {});
  EXPECT(clears([] { raise(SIGUSR1); }), true);
}

TEST(each_thread_has_a_word_of_its_own) {
  std::thread([] { EXPECT(clears([] { sleep_for(1000); }), true); }).join();
}

TEST(who_calls_nothing_keeps_its_processor_for_a_while) {
  bool is_kept = false;
  for (int i = 0; i < 100 && !is_kept; i++) is_kept = !clears([] {});
  look_for_switches(true);
  EXPECT(is_kept || !switches_are_known, true);
  switches_are_known = false;
}

TEST(where_switches_are_not_asked_for_the_word_stands) {
  look_for_switches(false);
  Kept kept;
  kept.begin_thread();
  kept.set();
  sleep_for(1000);
  EXPECT(kept.is_known(), false);
  EXPECT(kept.stands(), true);
  EXPECT(kept.is_of_others(), false);
}
