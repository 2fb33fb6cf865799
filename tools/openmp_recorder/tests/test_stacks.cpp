// The paths that a thread of the program finds on its own stack, and finds again without unwinding it.
#include <unistd.h>

#include <cstdio>
#include <cstdlib>
#include <fstream>
#include <string>

#include "callers.hpp"
#include "known_stacks.hpp"
#include "logged_paths.hpp"
#include "own_stack.hpp"
#include "path_numbers.hpp"
#include "check.hpp"

extern "C" char __start_made_runtime[], __stop_made_runtime[];  // by the linker

CodeRange runtime_code, recorder_code;

namespace {
#define APART __attribute__((noinline))
#define OF_THE_RUNTIME APART __attribute__((section("made_runtime")))

// At a function's end: it goes on after its call, so that no compiler makes a jump of that.
void go_on() { asm volatile(""); }

struct Asked {
  KnownStacks stacks{own_stack()};
  uint64_t last = 0;
  unsigned learned = 0;
};

// As the recorder is called by the runtime.
APART void callback(Asked &asked, const void *code) {
  const char *own = static_cast<const char *>(__builtin_frame_address(0)) + sizeof(void *);
  const KnownStacks::Stack *known = asked.stacks.find(code, own);
  asked.learned += !known;
  asked.last = known ? known->place : asked.stacks.learn(code, code, own);
  go_on();
}

OF_THE_RUNTIME void make_task(Asked &asked) { callback(asked, __builtin_return_address(0)), go_on(); }
OF_THE_RUNTIME void run_code(void (*code)(Asked &), Asked &asked) { code(asked), go_on(); }

APART void spawn(Asked &asked) { make_task(asked), go_on(); }
APART void solve(Asked &asked) { spawn(asked), go_on(); }
APART void relax(Asked &asked) {
  volatile char more[200] = {};
  spawn(asked);
  more[0] = 1;
}
APART void walk(Asked &asked, int depth) {
  if (depth) walk(asked, depth - 1);
  else spawn(asked);
  go_on();
}
APART void varying(Asked &asked, size_t bytes) {
  volatile char *more = static_cast<volatile char *>(__builtin_alloca(bytes));
  make_task(asked);
  more[0] = 1;
}
APART void solving(Asked &asked) { solve(asked), go_on(); }
APART void relaxing(Asked &asked) { relax(asked), go_on(); }
APART void walking_far(Asked &asked) { walk(asked, 500), go_on(); }
APART void walking_farther(Asked &asked) { walk(asked, 900), go_on(); }
APART void varying_less(Asked &asked) { varying(asked, 16), go_on(); }
APART void varying_more(Asked &asked) { varying(asked, 1600), go_on(); }

// A list of paths in a folder of its own.
class Recorded {
 public:
  Recorded() {
    runtime_code = {reinterpret_cast<uintptr_t>(__start_made_runtime),
                    reinterpret_cast<uintptr_t>(__stop_made_runtime)};
    forget_paths();
    char name[] = "/tmp/spanprof-test-XXXXXX";
    folder = mkdtemp(name);
    begin_paths(folder);
  }
  ~Recorded() {
    if (system(("rm -r " + folder).c_str())) std::perror("rm");
  }
  std::vector<Calls> paths() const {
    LoggedPaths listed;
    listed.read(folder + log_form::paths_file);
    return listed.all();
  }
  // The number of the path.
  uint64_t run(void (*code)(Asked &)) {
    run_code(code, asked);
    return log_form::path_of(asked.last);
  }
  Asked asked;
  std::string folder;
};
}  // namespace

TEST(a_path_goes_from_the_creation_to_the_code_that_the_runtime_called) {
  Recorded recorded;
  EXPECT(recorded.run(solving), 1u);
  EXPECT(recorded.paths().size(), 1u);
  EXPECT(recorded.paths()[0].size(), 3u);  // in spawn, solve and solving
}

TEST(a_stack_is_unwound_once) {
  Recorded recorded;
  for (int times = 0; times < 5; times++) {
    EXPECT(recorded.run(solving), 1u);
    EXPECT(recorded.run(relaxing), 2u);
  }
  EXPECT(recorded.asked.learned, 2u);
  EXPECT(recorded.paths().size(), 2u);
  EXPECT(recorded.paths()[0][0] == recorded.paths()[1][0], true);
  EXPECT(recorded.paths()[0][1] == recorded.paths()[1][1], false);
}

TEST(a_recursion_is_unwound_to_its_first_turn) {
  Recorded recorded;
  EXPECT(recorded.run(walking_far), 1u);
  EXPECT(recorded.run(walking_farther), 1u);
  EXPECT(recorded.asked.learned, 1u);
  EXPECT(recorded.paths()[0].size(), 3u);  // in spawn, and in walk twice
}

TEST(a_function_whose_frame_varies_is_unwound_for_each_of_its_sizes) {
  Recorded recorded;
  uint64_t less = recorded.run(varying_less), more = recorded.run(varying_more);
  EXPECT(less == more, false);
  EXPECT(recorded.run(varying_less), less);
  EXPECT(recorded.run(varying_more), more);
  EXPECT(recorded.paths().size(), 2u);
}

TEST(a_stack_that_the_program_gave_the_thread_is_unwound_each_time) {
  Recorded recorded;
  Asked apart{KnownStacks({0, 0})};
  run_code(solving, apart);
  run_code(solving, apart);
  EXPECT(apart.learned, 2u);
  EXPECT(log_form::path_of(apart.last), 1u);
}

TEST(threads_have_the_numbers_of_paths_together) {
  Recorded recorded;
  Asked other;
  recorded.run(solving);
  run_code(relaxing, other);
  run_code(solving, other);
  EXPECT(log_form::path_of(other.last), 1u);
  EXPECT(recorded.run(relaxing), 2u);
}

TEST(where_the_list_cannot_be_written_the_place_is_the_creating_call) {
  Recorded recorded;
  recorded.run(solving);
  if (unlink((recorded.folder + log_form::paths_file).c_str())) std::perror("unlink");
  EXPECT(recorded.run(relaxing), 0u);
  EXPECT(recorded.asked.last != 0, true);
  EXPECT(recorded.run(solving), 1u);
}

TEST(a_list_that_no_recorder_writes_is_refused) {
  Recorded recorded;
  auto why = [&](const std::string &words) -> std::string {
    std::ofstream(recorded.folder + log_form::paths_file) << words;
    try {
      recorded.paths();
    } catch (const std::runtime_error &damage) {
      return damage.what();
    }
    return "";
  };
  EXPECT(why("4010a0 4020b0\n4010a0\n"), "");
  EXPECT(why("4010a0 4020b0\n4010"), "");  // there was no room for the rest
  EXPECT(why("4010a0\n4010g0\n"), "paths is damaged in line 2");
  EXPECT(why("4010a0 \n"), "paths is damaged in line 1");
  EXPECT(why("\n"), "paths is damaged in line 1");
  EXPECT(why("800000000000\n"), "paths is damaged in line 1");
  EXPECT(why("0\n"), "paths is damaged in line 1");
  std::string many = "1";
  for (unsigned i = 0; i < log_form::most_calls; i++) many += " 1";
  EXPECT(why(many + "\n"), "paths is damaged in line 1");
}
