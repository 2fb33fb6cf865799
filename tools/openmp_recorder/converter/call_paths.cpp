#include "call_paths.hpp"

#include <algorithm>

#include "log_form.hpp"

namespace {
constexpr uint64_t most_placed = 65536;
constexpr unsigned most_named = 3;  // callers

const void *marked(uint64_t number) { return reinterpret_cast<const void *>(log_form::place_of_path(number)); }

uint64_t number_in(const void *place) { return log_form::path_of(reinterpret_cast<uint64_t>(place)); }

// From the creating call to the code of the task that runs: what is around that is another task's.
std::vector<Frame> frames_of(const Calls &calls, const Places &places) {
  std::vector<Frame> out;
  for (const void *call : calls)
    for (const Frame &one : places.calls(call)) {
      out.push_back(one);
      if (one.is_outlined) return out;
    }
  return out;
}

std::string words_of(const Frame &caller) {
  return " called from " + (caller.function.empty() ? caller.at : caller.function + " at " + caller.at);
}
}  // namespace

CallPaths::CallPaths(const std::vector<Calls> &paths, const Places &places) : own(1), placed(1) {
  for (const Calls &calls : paths) add_own(calls, places);
}

uint32_t CallPaths::number(const Frame &frame) {
  auto [found, is_new] = numbers.emplace(std::pair(frame.function, frame.at), static_cast<uint32_t>(frames.size()));
  if (is_new) frames.push_back(frame);
  return found->second;
}

bool CallPaths::has_function(const Numbers &path, const std::string &function) const {
  return !function.empty() &&
         std::any_of(path.begin(), path.end(), [&](uint32_t one) { return frames[one].function == function; });
}

void CallPaths::add_own(const Calls &calls, const Places &places) {
  Own path{calls.front(), {}, {}};
  std::vector<Frame> all = frames_of(calls, places);
  for (const Frame &one : all) {
    bool is_there = has_function(path.frames, one.function), is_last = &one == &all.back();
    if (is_last && (one.is_outlined || is_there)) path.last = one, path.has_last = true;
    else if (!is_there) path.frames.push_back(number(one));
  }
  own.push_back(std::move(path));
}

// A compiler may name a task's code by nothing: then it is of the function in which the task was made.
CallPaths::Numbers CallPaths::whole(const Own &path, const Placed *maker) {
  Numbers out = path.frames;
  if (!path.has_last) return out;
  Frame last = path.last;
  if (last.function.empty() && maker) last.function = frames[maker->frames.front()].function;
  bool repeats = out.empty() || has_function(out, last.function);
  bool goes_on = repeats && maker && has_function(maker->frames, last.function);
  if (out.empty() || !goes_on) out.push_back(number(last));
  if (!goes_on) return out;
  for (uint32_t one : maker->frames)
    if (!has_function(out, frames[one].function)) out.push_back(one);
  return out;
}

uint64_t CallPaths::put(const void *creating, Numbers path) {
  auto found = known.find({creating, path});
  if (found != known.end()) return found->second;
  if (path.empty() || placed.size() > most_placed) return 0;
  uint64_t number = placed.size();
  placed.push_back({creating, path});
  known.emplace(std::pair(creating, std::move(path)), number);
  return number;
}

const void *CallPaths::place(uint64_t path, const void *maker) {
  Own &one = own[path];
  uint64_t of = one.has_last ? number_in(maker) : 0;
  if (one.place && one.maker == of) return one.place;
  auto [found, is_new] = made.try_emplace(path << 32 | of, 0);
  if (is_new) {
    const Placed *in = of ? &placed[of] : nullptr;
    found->second = put(one.creating, whole(one, in));
  }
  one.maker = of;
  one.place = found->second ? marked(found->second) : one.creating;
  return one.place;
}

// Those of one place have the first frames outwards in their names in which they differ.
void CallPaths::name(const std::vector<uint64_t> &alike, size_t frame, const std::string &words, unsigned named,
                     Places &places) const {
  std::map<uint32_t, std::vector<uint64_t>> by_caller;
  std::vector<uint64_t> ended;
  for (uint64_t one : alike) {
    const Numbers &path = placed[one].frames;
    if (named == most_named || path.size() <= frame) ended.push_back(one);
    else by_caller[path[frame]].push_back(one);
  }
  for (uint64_t one : ended) places.put(marked(one), words);
  bool differ = by_caller.size() + !ended.empty() > 1;
  for (auto &[caller, those] : by_caller)
    name(those, frame + 1, differ ? words + words_of(frames[caller]) : words, named + differ, places);
}

void CallPaths::name_in(Places &places) const {
  std::map<std::string, std::vector<uint64_t>> by_place;
  for (uint64_t i = 1; i < placed.size(); i++) {
    by_place[frames[placed[i].frames.front()].at].push_back(i);
    places.put_call(marked(i), placed[i].creating);
  }
  for (auto &[at, alike] : by_place) name(alike, 1, at, 0, places);
}
