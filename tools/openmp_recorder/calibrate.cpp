// What LLVM's runtime takes for tasks on this machine, on so many threads:
//
//     calibrate THREADS           a line for each time that was measured: WHAT NANOSECONDS
//     calibrate THREADS trees     only the regions of which `task` is, to be recorded
//
// task: of one in a tree that a thread makes and runs alone, all threads at once. steal: between two tasks of another
// thread. wake_up: from before a task is made until an idle thread begins it.
#include <omp.h>
#include <time.h>

#include <atomic>
#include <cstdint>
#include <cstdio>
#include <cstdlib>
#include <vector>

namespace {
const int depth = 7, tasks_of_a_tree = 254, stolen = 50;
const int64_t of_a_task = 3000, pause = 20000;  // nanoseconds

int64_t now() {
  timespec t;
  clock_gettime(CLOCK_MONOTONIC, &t);
  return int64_t{t.tv_sec} * 1000000000 + t.tv_nsec;
}

void spend(int64_t time) {
  for (int64_t begun = now(); now() - begun < time;) {
  }
}

void print_time(const char *what, int64_t time) { std::printf("%s %lld\n", what, static_cast<long long>(time)); }

void tree(int below) {
  if (!below) return;
#pragma omp task
  tree(below - 1);
#pragma omp task
  tree(below - 1);
#pragma omp taskwait
}

void trees(int threads, int turns) {
  std::vector<int64_t> taken(threads);
  for (int turn = 0; turn < turns; turn++) {
#pragma omp parallel num_threads(threads)
    {
      int64_t begun = now();
      tree(depth);
      taken[omp_get_thread_num()] = now() - begun;
    }
    for (int64_t time : taken) print_time("task", time / tasks_of_a_tree);
  }
}

struct alignas(64) Thief {
  int64_t ended = 0;
  std::vector<int64_t> between;
};

// One thread makes tasks, and does nothing else until the others have run them.
void steals(int threads, int turns) {
  std::vector<Thief> thieves(threads);
#pragma omp parallel num_threads(threads)
#pragma omp single
  for (int turn = 0; turn < turns; turn++) {
    for (Thief &one : thieves) one.ended = 0;
    std::atomic<int> left{stolen};
    std::atomic<int64_t> first{0};
    spend(pause);
    int64_t begun = now();
    for (int i = 0; i < stolen; i++) {
#pragma omp task shared(left, first, thieves)
      {
        Thief &mine = thieves[omp_get_thread_num()];
        int64_t begins = now(), none = 0;
        first.compare_exchange_strong(none, begins);
        if (mine.ended) mine.between.push_back(begins - mine.ended);
        spend(of_a_task);
        mine.ended = now();
        left--;
      }
    }
    while (left) spend(0);
    print_time("wake_up", first - begun);
  }
  for (const Thief &one : thieves)
    for (int64_t time : one.between) print_time("steal", time);
}
}  // namespace

int main(int count, char **words) {
  int threads = count > 1 ? std::atoi(words[1]) : 0;
  if (threads < 1) return 2;
  if (count > 2) {
    trees(threads, 40);
    return 0;
  }
  trees(threads, 50);
  if (threads > 1) steals(threads, 20);
}
