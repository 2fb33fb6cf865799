// The system's functions, before which those of this library stand.
#pragma once
#include <dlfcn.h>

#include <atomic>

#define ENTRY extern "C" __attribute__((visibility("default")))

// Programs call them in their handlers too, where the loader's lookup is unsafe: so each is found while this library is
// loaded. The object is constant before that, for calls that come sooner.
#define FIND_AT_LOAD(systems) \
  __attribute__((constructor)) static void find_##systems() { systems.get(); }

// To find it takes no lock of this library's; dlsym takes the loader's.
template <class Function>
class Systems {
 public:
  explicit constexpr Systems(const char *its_name, const char *its_version = nullptr)
      : name(its_name), version(its_version) {}
  Function get() {
    // Relaxed is enough: a thread that finds null looks up the same address again.
    Function known = found.load(std::memory_order_relaxed);
    return __builtin_expect(known != nullptr, true) ? known : find();
  }

 private:
  const char *name, *version;  // where the system has several of that name
  std::atomic<Function> found{nullptr};
  __attribute__((noinline)) Function find() {
    void *address = version ? dlvsym(RTLD_NEXT, name, version) : nullptr;
    if (!address) address = dlsym(RTLD_NEXT, name);
    auto function = reinterpret_cast<Function>(address);
    found.store(function, std::memory_order_relaxed);
    return function;
  }
};
