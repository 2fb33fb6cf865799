#include "own.hpp"

#include <dlfcn.h>
#include <link.h>
#include <stdlib.h>

#include <cstring>
#include <string>

#include "callers.hpp"
#include "life.hpp"
#include "log_form.hpp"
#include "notice.hpp"

CodeRange recorded_callers;

namespace {
// A library that the program brings along may have a name of its own: libgomp-24e2ab19.so.1.0.0.
int find_path(dl_phdr_info *module, size_t, void *path) {
  const char *name = strrchr(module->dlpi_name, '/');
  if (!name || strncmp(name, "/libgomp", strlen("/libgomp"))) return 0;
  *static_cast<std::string *>(path) = module->dlpi_name;
  return 1;
}

// RTLD_NOLOAD throughout: a second runtime in the process would have threads and teams of its own.
// The handle of what is chosen is never closed, so the runtime stays loaded as long as its functions are called here.
void *module_of(const void *code) {
  Dl_info info;
  return code && dladdr(code, &info) ? dlopen(info.dli_fname, RTLD_LAZY | RTLD_NOLOAD) : nullptr;
}

// No other runtime has that function. It may go by the name of gcc's library.
bool is_of_llvm(void *function) {
  void *library = module_of(function);
  if (!library) return false;
  bool has_fork = dlsym(library, "__kmpc_fork_call");
  dlclose(library);  // the program has it
  return has_fork;
}

constexpr char every_runtime_has[] = "GOMP_parallel";

// As the loader looks: in what all modules see, and then in what this one brought along.
void *runtime_called_by(const void *place) {
  void *function = dlsym(RTLD_NEXT, every_runtime_has);
  void *module = function ? nullptr : module_of(place);
  if (module) function = dlsym(module, every_runtime_has);
  return function && !is_of_llvm(function) ? module_of(function) : nullptr;
}

void *runtime_by_name() {
  if (void *library = dlopen("libgomp.so.1", RTLD_LAZY | RTLD_NOLOAD)) return library;
  std::string path;
  dl_iterate_phdr(find_path, &path);
  void *library = path.empty() ? nullptr : dlopen(path.c_str(), RTLD_LAZY | RTLD_NOLOAD);
  return library ? library : RTLD_NEXT;
}

// Runs once, under the guard of the static in `own_library`: other threads wait, and see `recorded_callers` afterwards.
void *choose_runtime(const void *place) {
  void *called = runtime_called_by(place);
  bool is_of_all = !called || dlsym(RTLD_NEXT, every_runtime_has);
  recorded_callers = is_of_all ? CodeRange{0, UINTPTR_MAX} : code_around(place);
  return called ? called : runtime_by_name();
}

// The place of the first call of all counts, and those of later calls do not.
void *own_library(const void *place = nullptr) {
  static void *const library = choose_runtime(place);
  return library;
}

// Of the calling thread: the module whose call came last, and its runtime.
struct LastCaller {
  CodeRange code;
  void *library = nullptr;
};
// Of that storage model, since otherwise a thread's first access allocates: a program's allocator may use OpenMP's
// locks.
__attribute__((tls_model("initial-exec"))) thread_local LastCaller last_caller;
}  // namespace

void *llvms_function(const char *name, const void *place) {
  void *next = dlsym(RTLD_NEXT, name);
  if (is_of_llvm(next)) return next;
  own_library(place);
  return nullptr;
}

void *others_function(const char *name, const void *place) {
  if (!last_caller.code.has(place)) last_caller = {code_around(place), runtime_called_by(place)};
  if (!last_caller.library || last_caller.library == own_library()) return nullptr;
  report_unseen(log_form::unseen_runtime);
  return dlsym(last_caller.library, name);
}

// It locks the loader, so each entry keeps the answer in a static.
void *own_function(const char *name) {
  void *function = dlsym(own_library(), name);
  if (function) return function;
  // The call cannot be carried out, and to return would change what the program computes.
  notice(std::string("the runtime has no ") + name + ", which the program calls");
  abort();
}
