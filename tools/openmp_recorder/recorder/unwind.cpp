#include "unwind.hpp"

#include <unwind.h>

#include <algorithm>
#include <cstring>

#include "callers.hpp"

namespace {
constexpr size_t most_in_runtime = 16;
constexpr uintptr_t farthest = 1 << 28;  // bytes on the stack

class Walk {
 public:
  explicit Walk(const char *from) : own(reinterpret_cast<uintptr_t>(from)) {}
  CallStack found;
  bool goes_on(_Unwind_Context *context);

 private:
  uintptr_t own;
  std::vector<uintptr_t> functions;
  bool add(uintptr_t value, uintptr_t function);
};

// An unwinder knows where a function's own frame ends, and below that the return address stands.
// What stands there is compared with what the unwinder says, since `KnownStacks` later reads nothing but that memory.
bool Walk::goes_on(_Unwind_Context *context) {
  uintptr_t at = _Unwind_GetCFA(context) - sizeof(uintptr_t), value = _Unwind_GetIP(context);
  if (at < own) return true;  // functions that the recorder called
  uintptr_t stands = 0;
  // Offsets are kept in 32 bits, so what is farther away is no part of a path.
  if (at - own < farthest) std::memcpy(&stands, reinterpret_cast<const void *>(at), sizeof stands);
  if (!value || stands != value) {  // its caller is not known, or stands elsewhere
    found.path.clear();
    return false;
  }
  found.all.push_back({static_cast<uint32_t>(at - own), value});
  return add(value, _Unwind_GetRegionStart(context));
}

// A function that is on the path already ends it, so a recursion is there once, however deep the stack.
bool Walk::add(uintptr_t value, uintptr_t function) {
  if (in_runtime(reinterpret_cast<const void *>(value)))
    return found.path.empty() && found.all.size() < most_in_runtime;
  found.path.push_back(value);
  if (std::find(functions.begin(), functions.end(), function) != functions.end()) return false;
  functions.push_back(function);
  return found.path.size() < log_form::most_calls;
}

// Called by libgcc, once for each frame from the inside out.
_Unwind_Reason_Code take(_Unwind_Context *context, void *walk) {
  return static_cast<Walk *>(walk)->goes_on(context) ? _URC_NO_REASON : _URC_END_OF_STACK;
}
}  // namespace

CallStack unwind_from(const char *own) {
  Walk walk(own);
  _Unwind_Backtrace(take, &walk);
  return std::move(walk.found);
}
