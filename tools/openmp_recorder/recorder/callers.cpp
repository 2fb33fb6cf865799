#include "callers.hpp"

#include <dlfcn.h>
#include <execinfo.h>
#include <link.h>

#include <atomic>
#include <cstdint>
#include <cstring>

namespace {
// Takes over the executable segment that has the function, which is where the range begins.
int find_segment(dl_phdr_info *module, size_t, void *range) {
  CodeRange &found = *static_cast<CodeRange *>(range);
  for (int i = 0; i < module->dlpi_phnum; i++) {
    const ElfW(Phdr) &segment = module->dlpi_phdr[i];
    CodeRange here{module->dlpi_addr + segment.p_vaddr, module->dlpi_addr + segment.p_vaddr + segment.p_memsz};
    if (segment.p_type != PT_LOAD || !here.has(reinterpret_cast<const void *>(found.first))) continue;
    found = here;
    return 1;
  }
  return 0;
}

// What passes on an address inside itself, and not its caller's: the calls of gcc's code, and a taskloop.
enum class Inside : uintptr_t { Neither, CallOfGcc, Taskloop };

bool begins(const char *name, const char *with) { return !strncmp(name, with, strlen(with)); }

// `dladdr` locks the loader: not in a handler. It takes 20 us.
Inside find_function(const void *code) {
  Dl_info info;
  if (!dladdr(const_cast<void *>(code), &info) || !info.dli_sname) return Inside::Neither;
  if (begins(info.dli_sname, "__kmpc_taskloop") || begins(info.dli_sname, "GOMP_taskloop")) return Inside::Taskloop;
  return begins(info.dli_sname, "GOMP_") ? Inside::CallOfGcc : Inside::Neither;
}

// The answers for the last places, each an address with its answer in the lowest bits: any thread may write one.
constexpr unsigned answer_bits = 2, most_answers = 64;
std::atomic<uintptr_t> answers[most_answers];

Inside function_of(const void *code) {
  auto address = reinterpret_cast<uintptr_t>(code);
  std::atomic<uintptr_t> &known = answers[address % most_answers];
  uintptr_t kept = known.load(std::memory_order_relaxed);
  if (kept >> answer_bits == address) return static_cast<Inside>(kept & ((1 << answer_bits) - 1));
  Inside found = find_function(code);
  known.store(address << answer_bits | static_cast<uintptr_t>(found), std::memory_order_relaxed);
  return found;
}
}  // namespace

CodeRange runtime_code, recorder_code;

CodeRange code_around(const void *code) {
  CodeRange range{reinterpret_cast<uintptr_t>(code), 0};
  return dl_iterate_phdr(find_segment, &range) ? range : CodeRange{};
}

void find_runtime(const void *function) { runtime_code = code_around(function); }
void find_recorder() { recorder_code = code_around(reinterpret_cast<const void *>(find_recorder)); }

const void *nearest_in_program() {
  constexpr int most_frames = 12;
  void *frames[most_frames];
  int count = backtrace(frames, most_frames);
  for (int i = 1; i < count; i++)
    if (in_runtime(frames[i - 1]) && !in_runtime(frames[i])) return frames[i];
  return nullptr;
}

bool makes_tasks_of_loop(const void *code) { return runtime_code.has(code) && function_of(code) == Inside::Taskloop; }

// The caller of such a call, from the stack. After a tail call of the program the place is in no such function,
// and the caller is lost; a taskloop has too many arguments for one.
const void *caller_in_program(const void *code) {
  return !recorder_code.has(code) && function_of(code) != Inside::Neither ? nearest_in_program() : nullptr;
}
