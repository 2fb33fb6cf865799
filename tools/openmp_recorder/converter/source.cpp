#include "source.hpp"

#include <unistd.h>

#include <algorithm>
#include <cstdint>
#include <cstdio>
#include <cstdlib>
#include <cstring>
#include <map>
#include <sstream>

#include "names.hpp"

namespace {
constexpr size_t most_at_once = 4000;  // addresses of one call
constexpr int newest = 40, oldest = 14;  // versions of LLVM

std::string base_name(const std::string &path) { return path.substr(path.rfind('/') + 1); }

// The address as the module's file has it, of the call and not of what follows it.
uint64_t in_file(const void *code, const ModuleOfRun &module) {
  return reinterpret_cast<uint64_t>(code) - 1 - module.base;
}

// `file:line`, where neither is unknown: addr2line then prints `??` and `:0` or `:?`.
bool is_known(const std::string &answer) {
  size_t colon = answer.rfind(':');
  if (colon == std::string::npos || !answer.compare(0, 2, "??")) return false;
  return answer[colon + 1] != '0' && answer[colon + 1] != '?';
}

// For code in no function that has a symbol.
std::string nameless(const ModuleOfRun &module) { return "[" + base_name(module.path) + "]"; }

std::string symbol(const void *code, const ModuleOfRun &module) {
  char text[64];
  uint64_t at = in_file(code, module);
  auto found = module.file ? module.file->function_at(at) : std::nullopt;
  snprintf(text, sizeof text, "+0x%zx", static_cast<size_t>(found ? found->offset + 1 : at));
  return (found ? short_name(demangled(std::string(found->name))) : nameless(module)) + text;
}

// What a compiler makes of a construct's code: `main.omp_outlined`, `main._omp_fn.0`, `f(int) [clone .omp_outlined]`.
Frame frame_of(std::string name, const std::string &at) {
  auto has = [&](const char *part) { return name.find(part) != std::string::npos; };
  bool is_outlined = has(".omp_outlined") || has("._omp_fn") || has(".omp_task_entry");
  for (const char *ending : {" [clone ", ".omp_outlined", "._omp_fn", ".omp_task_entry"})
    if (size_t found = name.find(ending); found != std::string::npos) name.resize(found);
  if (name == "??") name.clear();
  std::string few = short_name(name);
  return {few, base_name(at), is_outlined, few == name ? "" : name, is_of_system(at)};
}

bool next_line(FILE *answers, std::string &line) {
  char text[4096];
  line.clear();
  while (fgets(text, sizeof text, answers)) {
    line += text;
    if (line.back() != '\n') continue;
    line.pop_back();
    return true;
  }
  return !line.empty();
}

// Without what stands next to it.
std::string place_of(const std::string &answer) { return answer.substr(0, answer.find(" (discriminator ")); }

bool is_address(const std::string &line) { return !line.compare(0, 2, "0x"); }

// What was put into the program's own code from a header of the system's is at the line that calls it.
void leave_headers(std::vector<Frame> &frames) {
  auto own = std::find_if(frames.begin(), frames.end(), [](const Frame &one) { return !one.of_library; });
  if (own != frames.end() && is_known(own->at)) frames.erase(frames.begin(), own);
}
}  // namespace

std::string quoted(const std::string &word) {
  std::string out = "'";
  for (char c : word) out += c == '\'' ? std::string("'\\''") : std::string(1, c);
  return out + "'";
}

std::string resolver_in(const std::string &folders) {
  std::vector<std::string> names;
  for (int version = newest; version >= oldest; version--) names.push_back("llvm-addr2line-" + std::to_string(version));
  names.push_back("llvm-addr2line");
  for (const std::string &name : names) {
    std::istringstream all(folders);
    for (std::string folder; std::getline(all, folder, ':');)
      if (!access((folder + "/" + name).c_str(), X_OK)) return name;
  }
  return "addr2line";
}

bool is_of_system(const std::string &source) {
  for (const char *folder : {"/usr/include/", "/usr/lib/", "/usr/bin/../"})  // clang's paths go through its own folder
    if (!source.rfind(folder, 0)) return true;
  return false;
}

void Places::take_path(const std::string &at) {
  std::string path = at.substr(0, at.rfind(':'));
  if (path[0] != '/' || is_of_system(path)) return;
  std::string &one = paths.emplace(base_name(path), path).first->second;
  if (one != path) one.clear();
}

const std::string &Places::path(const std::string &file) const {
  static const std::string unknown;
  auto found = paths.find(file);
  return found == paths.end() ? unknown : found->second;
}

void Places::take(const void *code, std::vector<Frame> frames) {
  leave_headers(frames);
  // A construct's function of gcc may begin with code of a function that is inlined in it.
  if (of_run && of_run->begins_construct(code) && frames.size() > 1 && frames.back().is_outlined)
    frames.erase(frames.begin(), frames.end() - 1);
  bool has_line = !frames.empty() && is_known(frames[0].at);
  if (has_line) known[code] = frames[0].at;
  auto remove = [&](auto which) { frames.erase(std::remove_if(frames.begin(), frames.end(), which), frames.end()); };
  remove([](const Frame &one) { return !is_known(one.at); });
  if (has_line) all_around[code] = frames;
  remove([](const Frame &one) { return one.function.empty(); });
  auto is_same = [](const Frame &one, const Frame &next) { return one.function == next.function; };
  frames.erase(std::unique(frames.begin(), frames.end(), is_same), frames.end());
  if (!frames.empty()) around[code] = std::move(frames);
}

// An answer is the address, and then a line for each function and one for each place.
void Places::ask(const ModuleOfRun &module, const std::vector<const void *> &codes) {
  static const std::string resolver = resolver_in(getenv("PATH") ? getenv("PATH") : "");
  std::string command = "DEBUGINFOD_URLS= " + resolver + " -a -f -i -e " + quoted(module.path);  // nothing is fetched
  for (const void *code : codes) {
    char text[32];
    snprintf(text, sizeof text, " 0x%zx", static_cast<size_t>(in_file(code, module)));
    command += text;
  }
  FILE *answers = popen((command + " 2>/dev/null").c_str(), "r");
  if (!answers) return;
  std::string line, at;
  bool more = next_line(answers, line);
  for (size_t i = 0; i < codes.size() && more && is_address(line); i++) {
    std::vector<Frame> frames;
    while ((more = next_line(answers, line)) && !is_address(line) && next_line(answers, at)) {
      frames.push_back(frame_of(demangled(line), place_of(at)));
      take_path(at);
    }
    take(codes[i], std::move(frames));
  }
  pclose(answers);
}

void Places::look_up(const std::vector<const void *> &codes) {
  std::map<const ModuleOfRun *, std::vector<const void *>> by_module;
  for (const void *place : codes) {
    const void *code = call_at(place);
    const ModuleOfRun *module = code && of_run ? of_run->of(code) : nullptr;
    if (!module || module->is_runtime || known.count(code)) continue;
    known[code] = symbol(code, *module);
    by_module[module].push_back(code);
  }
  for (auto &[module, own] : by_module)
    for (size_t i = 0; i < own.size(); i += most_at_once)
      ask(*module, {own.begin() + i, own.begin() + std::min(own.size(), i + most_at_once)});
}

const std::string &Places::at(const void *code) const {
  static const std::string unknown;
  auto found = known.find(code);
  return found == known.end() ? unknown : found->second;
}

const std::vector<Frame> &Places::frames(const void *code) const {
  static const std::vector<Frame> none;
  auto found = around.find(code);
  return found == around.end() ? none : found->second;
}

const std::vector<Frame> &Places::unnamed(const void *code) const {
  static const std::vector<Frame> none;
  auto found = all_around.find(code);
  return found == all_around.end() || around.count(code) ? none : found->second;
}

std::string Places::function(const void *code) const {
  const ModuleOfRun *module = code && of_run ? of_run->of(code) : nullptr;
  if (!module) return {};
  auto found = module->file ? module->file->function_at(in_file(code, *module)) : std::nullopt;
  return found ? frame_of(demangled(std::string(found->name)), "").function : nameless(*module);
}

std::vector<Frame> Places::calls(const void *code) const {
  auto found = all_around.find(code);
  if (found != all_around.end()) return found->second;
  const std::string &place = at(code);
  return place.empty() ? std::vector<Frame>{} : std::vector<Frame>{{"", place}};
}

const void *Places::call_at(const void *place) const {
  auto found = addresses.find(place);
  return found == addresses.end() ? place : found->second;
}

void Places::put_call(const void *place, const void *code) { addresses[place] = code; }
