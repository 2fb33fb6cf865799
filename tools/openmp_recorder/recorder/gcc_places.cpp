#include "gcc_places.hpp"

#include <dlfcn.h>
#include <sched.h>

#include <vector>

namespace {
// Of OpenMP, as gcc's runtime has them.
struct Places {
  int (*count)() = nullptr;
  int (*processors)(int place) = nullptr;
  void (*numbers)(int place, int *out) = nullptr;
  explicit operator bool() const { return count && processors && numbers; }
};

template <class Function>
void find(void *library, const char *name, Function &function) {
  function = reinterpret_cast<Function>(dlsym(library, name));
}

// It asks for the library only where it is loaded already: to load it here would bring in a second runtime.
Places places_of_gcc() {
  Places out;
  void *library = dlopen("libgomp.so.1", RTLD_LAZY | RTLD_NOLOAD);
  if (!library) return out;
  bool is_of_llvm = dlsym(library, "__kmpc_fork_call");  // by the name of gcc's, and it is about to begin
  if (is_of_llvm) return dlclose(library), out;
  find(library, "omp_get_num_places", out.count);
  find(library, "omp_get_place_num_procs", out.processors);
  find(library, "omp_get_place_proc_ids", out.numbers);
  dlclose(library);  // the program has it
  return out;
}

void add(const Places &places, int place, cpu_set_t &set) {
  std::vector<int> numbers(static_cast<size_t>(places.processors(place)));
  places.numbers(place, numbers.data());
  for (int number : numbers)
    if (number >= 0 && number < CPU_SETSIZE) CPU_SET(number, &set);
}
}  // namespace

// On the first thread, before LLVM's runtime has counted the processors; later it would be too late.
void give_processors_back() {
  Places places = places_of_gcc();
  if (!places || places.count() < 2) return;
  cpu_set_t first, all, now;
  CPU_ZERO(&first);
  CPU_ZERO(&all);
  add(places, 0, first);
  for (int place = 0; place < places.count(); place++) add(places, place, all);
  // Where the thread has other processors than the first place, somebody else bound it, and that stays.
  bool is_bound = !sched_getaffinity(0, sizeof now, &now) && CPU_EQUAL(&now, &first);
  if (is_bound) sched_setaffinity(0, sizeof all, &all);
}
