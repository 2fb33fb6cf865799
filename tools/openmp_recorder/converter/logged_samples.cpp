#include "logged_samples.hpp"

#include <algorithm>
#include <cstdio>
#include <cstring>
#include <memory>

namespace {
using log_form::RawSample;
using log_form::window_bytes;

// The instruction itself is named as a call is: by what follows.
Calls calls_of(const char *at, unsigned count) {
  Calls calls;
  for (unsigned i = 0; i < count; i++) {
    uint64_t address = 0;
    std::memcpy(&address, at + i * sizeof address, sizeof address);
    calls.push_back(reinterpret_cast<const void *>(address + !i));
  }
  return calls;
}

class Window {
 public:
  Window(const log_form::Head &head, Stacks &all, unsigned number)
      : by_ticks(head.counter == log_form::Counter::TimeStamp), stacks(all), thread(number) {}
  std::vector<Sample> found;
  void read(const char *bytes, size_t count);

 private:
  bool by_ticks;
  Stacks &stacks;
  unsigned thread;
  uint32_t interrupted(const RawSample &raw, const char *calls);
};

// Its instruction is the first of the calls, and its registers stand behind them.
uint32_t Window::interrupted(const RawSample &raw, const char *calls) {
  if (raw.slept) return 0;
  Interrupted one{thread, raw.wall, 0, {}, raw.stands_for};
  std::memcpy(&one.code, calls, sizeof one.code);
  std::memcpy(one.registers.data(), calls + raw.frames * sizeof(uint64_t), sizeof one.registers);
  stacks.interrupted.push_back(one);
  return static_cast<uint32_t>(stacks.interrupted.size());
}

void Window::read(const char *bytes, size_t count) {
  RawSample raw{};
  for (size_t at = 0; at + sizeof raw <= count;) {
    std::memcpy(&raw, bytes + at, sizeof raw);
    at += sizeof raw;
    size_t rest = raw.bytes() - sizeof raw;
    if (!raw.at || !raw.frames || raw.frames > log_form::most_frames || rest > count - at) return;
    uint64_t order = by_ticks ? raw.at : static_cast<uint64_t>(raw.wall);
    uint32_t stack = stacks.number(calls_of(bytes + at, raw.frames));
    found.push_back({order, stack, raw.stands_for, interrupted(raw, bytes + at), raw.took, raw.slept != 0});
    at += rest;
  }
}

struct Close {
  void operator()(FILE *open) const { fclose(open); }
};
}  // namespace

uint32_t Stacks::number(const Calls &calls) {
  auto [known, is_new] = numbers.insert({calls, static_cast<uint32_t>(stacks.size())});
  if (is_new) stacks.push_back(calls);
  return known->second;
}

std::vector<Sample> read_samples(const std::string &path, const log_form::Head &head, Stacks &stacks, unsigned thread) {
  Window window(head, stacks, thread);
  std::unique_ptr<FILE, Close> file(fopen(path.c_str(), "re"));
  std::vector<char> bytes(window_bytes);
  while (size_t count = file ? fread(bytes.data(), 1, bytes.size(), file.get()) : 0) window.read(bytes.data(), count);
  auto is_before = [](const Sample &one, const Sample &other) { return one.order < other.order; };
  std::stable_sort(window.found.begin(), window.found.end(), is_before);
  return std::move(window.found);
}
