#include "sampled_calls.hpp"

#include <algorithm>
#include <cstring>
#include <map>
#include <set>
#include <vector>

#include "run.hpp"
#include "shared_lines.hpp"

namespace {
using Names = std::vector<std::string>;  // innermost first

constexpr const char *of_system = "@";  // before its library
constexpr const char *headers = "@headers";  // in place of a library's name: the code stands in the program
constexpr const char *the_runtime = "runtime@OpenMP";  // whatever it does for the program, or calls the system for
constexpr const char *unnamed = "unnamed";  // what compilers make of a construct, and code of no file

bool begins_with_one(const std::string &name, const std::vector<const char *> &starts) {
  return std::any_of(starts.begin(), starts.end(), [&](auto *start) { return !name.rfind(start, 0); });
}

// Whether it is one of these files, whatever its version: `python3.11`, `libruby-3.1.so.3`.
bool is_version_of_one(const std::string &name, const std::vector<std::string> &files) {
  return std::any_of(files.begin(), files.end(), [&](const std::string &file) {
    std::string rest = name.rfind(file, 0) ? "no" : name.substr(file.size());
    return rest.substr(0, rest.find(".so")).find_first_not_of("0123456789.-") == std::string::npos;
  });
}

// The library of the system, or the interpreter, that has it; empty where it is the program's, or another library's.
std::string library_of_system(const void *code, const Places &places) {
  const ModuleOfRun *module = code && places.modules() ? places.modules()->of(code) : nullptr;
  std::string name = module ? module->path.substr(module->path.rfind('/') + 1) : "";
  bool is_systems = begins_with_one(name, {"libc.so", "libm.so", "ld-linux", "linux-vdso", "libstdc++", "libgcc_s",
                                           "libtcmalloc", "libjemalloc", "libmimalloc", "libtbbmalloc"});
  bool is_interpreter =
      name == "R" ||
      is_version_of_one(name, {"python", "octave-cli", "octave-gui", "perl", "ruby", "guile", "lua", "libpython",
                               "libR", "liboctinterp", "liboctave", "libperl", "libruby", "libguile", "liblua"});
  return is_systems || is_interpreter ? name : "";
}

// As a program calls it: `sin` of `__sin_fma`.
std::string called_as(std::string name) {
  if (!name.rfind("__GI_", 0)) name = name.substr(5);
  name = name.substr(std::min(name.find_first_not_of('_'), name.size()));
  for (const char *ending : {"_fma", "_avx", "_evex", "_sse"}) name = name.substr(0, name.find(ending));
  return name;
}

bool has_no_symbol(const std::string &name) { return name[0] == '['; }

// A function of the C++ library that stands in the program, since it is a template: `void std::sort<..>(int*, int*)`.
bool is_standard(const std::string &name) {
  std::string qualified = name.substr(0, name.find('('));
  size_t type_ends = qualified.rfind(' ') + 1;
  return !qualified.compare(type_ends, 5, "std::") || !qualified.compare(type_ends, 11, "__gnu_cxx::");
}

// That of the file, in brackets, where the function has none, as those of a program without symbols.
Names names_of(const void *code, const Places &places) {
  Names out;
  if (std::string library = library_of_system(code, places); !library.empty()) {
    std::string name = called_as(places.function(code));
    return {(name.empty() || has_no_symbol(name) ? library : name) + of_system + library};
  }
  for (const Frame &frame : places.frames(code))
    if (!frame.function.empty())
      out.push_back(frame.function + (frame.of_library && !frame.is_outlined ? headers : ""));
  if (!out.empty()) return out;
  std::string name = places.function(code);
  return name.empty() ? out : Names{name + (is_standard(name) ? headers : "")};
}

bool is_of_system(const std::string &name) { return name.find(of_system) != std::string::npos; }
bool is_of_program(const std::string &name) { return !is_of_system(name) || name.find(headers) != std::string::npos; }
bool begins_the_program(const std::string &name) { return is_of_system(name) || name == "_start"; }
bool calls_main(const std::string &name) { return !name.rfind("libc_start", 0); }

// The functions of the system that stand in the recorder's library are called as without it.
bool is_recorder(const void *code, const Places &places) {
  const ModuleOfRun *module = code && places.modules() ? places.modules()->of(code) : nullptr;
  return module && module->path.substr(module->path.rfind('/') + 1) == "librecorder.so";
}

// It gives memory, or takes it back: of the C library, the C++ library, or what stands in their place.
bool is_allocator(const std::string &name) {
  std::string function = name.substr(0, name.find(of_system));
  for (const char *prefix : {"libc_", "je_", "tc_", "mi_"})
    if (!function.rfind(prefix, 0)) function = function.substr(strlen(prefix));
  static const std::set<std::string> all{"malloc", "calloc",   "realloc",        "reallocarray",  "free",
                                         "cfree",  "memalign", "posix_memalign", "aligned_alloc", "valloc"};
  return all.count(function) || begins_with_one(function, {"operator new", "operator delete"});
}

// Those of a call of MPI end with it, whatever its library does inside: it talks to other ranks, or waits for them.
bool is_of_ranks(const std::string &name) { return begins_with_one(name, {"MPI_", "PMPI_"}); }

void add_names(Names &all, const Names &more) {
  for (const std::string &name : more) {
    bool is_called = !all.empty() && is_of_system(all.back()) && all.back() != the_runtime;
    if (is_called && is_of_system(name)) all.back() = name;  // what the program called
    else if (all.empty() || all.back() != name) all.push_back(name);
  }
}

std::string joined(const Names &names) {
  std::string out;
  for (auto name = names.rbegin(); name != names.rend(); ++name) out += (out.empty() ? "" : ";") + *name;
  return out;
}

enum Did { ran, slept, shares, at, allocated, spins, strides, loops };
constexpr const char *words[] = {" ran ",       " slept ", " shares ",  " at ",
                                 " allocated ", " spins ", " strides ", " loops "};

using Sampled = std::pair<Did, std::string>;  // in which calls, or where

struct Sum {
  std::map<Sampled, uint64_t> by_calls;  // microseconds
};

struct Called {
  Names names;
  bool allocates = false;
};

// Up to where the runtime called the program. What the runtime calls the recorder for is not its own.
Called called_from(const Calls &calls, const Places &places) {
  Called out;
  Names &all = out.names;
  bool of_recorder = false, in_program = false;
  for (const void *code : calls) {
    bool is_runtime = places.modules() && places.modules()->in_runtime(code);
    of_recorder |= is_recorder(code, places);
    if (is_runtime && (in_program || (of_recorder && !all.empty()))) break;
    if (is_runtime && !of_recorder) out = {{the_runtime}};
    if (is_runtime || is_recorder(code, places)) continue;
    Names more = names_of(code, places);
    in_program |= more.empty() || is_of_program(more.back());
    out.allocates |= std::any_of(more.begin(), more.end(), is_allocator);
    add_names(all, more);
  }
  if (in_program && all.empty()) all.push_back(unnamed);
  return out;
}

struct Named {
  std::string calls;
  Frame own;  // the innermost one of the program
  bool in_recorder;  // its own code was running, which is none of the program's
  bool allocates;
  bool in_direct_call;  // in a function of the system that the program's code called itself
};

Frame own_of(const Calls &calls, const Places &places) {
  for (const void *code : calls) {
    const auto &frames = places.frames(code).empty() ? places.unnamed(code) : places.frames(code);
    if (library_of_system(code, places).empty() && !frames.empty() && !frames[0].of_library &&
        !is_allocator(frames[0].function))
      return frames[0];
  }
  return {};
}

bool in_direct_call(const Calls &calls, const Places &places) {
  return calls.size() > 1 && !library_of_system(calls[0], places).empty() && !is_recorder(calls[1], places) &&
         library_of_system(calls[1], places).empty();
}

std::vector<Named> all_named(const Stacks &stacks, Places &places) {
  std::set<const void *> codes;
  for (const Calls &calls : stacks.all()) codes.insert(calls.begin(), calls.end());
  places.look_up({codes.begin(), codes.end()});
  std::vector<Named> out;
  for (const Calls &calls : stacks.all())
    out.push_back({named_calls(calls, places), own_of(calls, places),
                   !calls.empty() && is_recorder(calls.front(), places), called_from(calls, places).allocates,
                   in_direct_call(calls, places)});
  return out;
}

// Where the program uses a cache line with others, itself or by a function that it hands an address to, such as
// `rand_r`; what functions with locks of their own use is theirs.
std::string use_of_line(const Contended &use, const Named &named, const Places &places) {
  if (library_of_system(use.place, places).empty()) return places.at(use.place);
  bool is_given = named.in_direct_call && !named.allocates && !use.is_wait && !use.synchronises;
  return is_given ? named.own.at : "";
}

// Of each sample, the place that used a cache line which other threads used too; the next one where that has no line.
std::vector<Contended> all_contended(const Stacks &stacks, Places &places) {
  if (!places.modules()) return std::vector<Contended>(stacks.interrupted.size());
  std::vector<Contended> found = contending(stacks, *places.modules());
  std::set<const void *> codes;
  for (const Contended &one : found) codes.insert({one.place, one.loop});
  places.look_up({codes.begin(), codes.end()});
  auto has_line = [&](const void *code) {
    const std::vector<Frame> &frames = places.frames(code);
    return !places.unnamed(code).empty() || (!frames.empty() && frames[0].at == places.at(code));
  };
  for (size_t i = 0; i < found.size(); i++)
    if (found[i].place && !has_line(found[i].place))
      found[i].place = reinterpret_cast<const void *>(stacks.interrupted[i].code + 1);
  return found;
}
}  // namespace

std::string named_calls(const Calls &calls, const Places &places) {
  Names all = called_from(calls, places).names;
  auto ranks = std::find_if(all.rbegin(), all.rend(), is_of_ranks);
  if (ranks != all.rend()) all.erase(all.begin(), ranks.base() - 1);
  auto start = std::find_if(all.begin(), all.end(), calls_main);
  bool is_nameless = start != all.begin() && start != all.end() && has_no_symbol(*(start - 1));
  if (is_nameless) all.erase(start, all.end()), all.push_back("main");
  while (all.size() > 1 && begins_the_program(all.back())) all.pop_back();
  return joined(all);
}

std::string sampled_lines(const Region &region, OffTimes &times, const Stacks &stacks, Places &places) {
  std::vector<Named> names = all_named(stacks, places);
  std::vector<Contended> contended = all_contended(stacks, places);
  times.number(region);
  std::map<uint64_t, Sum> found;
  for (const OffTime &one : times.in_text()) {
    if (!one.stands_for || one.stack >= names.size()) continue;
    const Named &named = names[one.stack];
    if (named.calls.empty() || (named.in_recorder && !one.asleep)) continue;
    auto &by_calls = found[one.number].by_calls;
    by_calls[{one.asleep ? slept : ran, named.calls}] += one.stands_for;
    Contended shared = one.sample ? contended[one.sample - 1] : Contended{};
    if (!one.asleep && !named.own.at.empty()) by_calls[{at, named.own.at}] += one.stands_for;
    if (!one.asleep && named.allocates)
      by_calls[{allocated, named.own.at + " " + named.own.function}] += one.stands_for;
    if (!one.asleep && shared.loop && !named.own.at.empty()) {
      by_calls[{strides, named.own.at}] += one.stands_for;
      by_calls[{loops, places.at(shared.loop)}] += one.stands_for;
    }
    auto beyond = static_cast<uint64_t>(shared.beyond * one.stands_for);
    std::string used_at = use_of_line(shared, named, places);
    if (beyond && !used_at.empty()) by_calls[{shared.is_wait ? spins : shares, used_at}] += beyond;
  }
  std::string out;
  for (auto &[number, sum] : found)
    for (auto &[calls, time] : sum.by_calls) {
      out += std::to_string(number) + words[calls.first] + std::to_string(time) + " " + calls.second + "\n";
    }
  return out;
}
