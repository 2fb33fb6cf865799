#include "modules_of_run.hpp"

#include <algorithm>
#include <cstring>
#include <fstream>
#include <sstream>

bool ModuleOfRun::is_optimised_by_gcc() const {
  if (!of_gcc) of_gcc = file && file->is_optimised_by_gcc();
  return *of_gcc;
}

void ModulesOfRun::read(const std::string &list, const std::string &program) {
  std::ifstream lines(list);
  for (std::string line; std::getline(lines, line);) add(line, program);
}

void ModulesOfRun::add(const std::string &line, const std::string &program) {
  ModuleOfRun one{};
  std::string what;
  std::istringstream words(line);
  if (!(words >> std::hex >> one.base >> one.first >> one.end >> what)) return;
  std::getline(words >> std::ws, one.path);
  one.path.resize(std::strlen(one.path.c_str()));  // a zero of a damaged log would end a command of the shell
  one.is_runtime = what == "runtime";
  if (one.path.empty()) one.path = program;
  for (const ModuleOfRun &known : all)
    if (known.path == one.path) one.file = known.file;
  if (!one.file && one.path[0] == '/') one.file = std::make_shared<ElfFile>(one.path);
  all.push_back(std::move(one));
}

const ModuleOfRun *ModulesOfRun::of(const void *code) const {
  auto has = [&](const ModuleOfRun &one) { return one.has(reinterpret_cast<uint64_t>(code)); };
  auto found = std::find_if(all.rbegin(), all.rend(), has);
  return found == all.rend() ? nullptr : &*found;
}

bool ModulesOfRun::in_runtime(const void *code) const {
  const ModuleOfRun *module = of(code);
  return module && module->is_runtime;
}

bool ModulesOfRun::is_import_of_runtime(const ModuleOfRun &module, uint64_t entry) const {
  std::string_view name = module.file->import_at(entry);
  return !name.empty() && std::any_of(all.begin(), all.end(), [&](const ModuleOfRun &one) {
    return one.is_runtime && one.file && one.file->defines(name);
  });
}

bool ModulesOfRun::begins_construct(const void *code) const {
  const ModuleOfRun *module = of(code);
  if (!module || !module->file) return false;
  auto function = module->file->function_at(reinterpret_cast<uint64_t>(code) - 1 - module->base);
  return function && !function->offset && function->name.find("._omp_fn.") != std::string_view::npos;
}

// By the bytes before the place, on x86-64: a call of a function, of a stub, or by the table that a stub takes.
bool ModulesOfRun::follows_call_of_runtime(const void *code) const {
#if defined(__x86_64__)
  constexpr uint64_t longest_call = 6, longest_stub = 24;
  constexpr unsigned char call = 0xe8, by_table = 0xff, call_by_table = 0x15, jump_by_table = 0x25;
  const ModuleOfRun *module = of(code);
  if (!module || !module->file) return true;
  uint64_t after = reinterpret_cast<uint64_t>(code) - module->base;
  auto bytes = [&](uint64_t address, uint64_t count) {
    std::string_view found = module->file->bytes_at(address, count);
    return std::vector<unsigned char>(found.begin(), found.end());
  };
  auto relative = [](const std::vector<unsigned char> &in, size_t at, uint64_t from) {
    int32_t distance;
    memcpy(&distance, in.data() + at, sizeof distance);
    return from + static_cast<uint64_t>(int64_t{distance});
  };
  std::vector<unsigned char> before = bytes(after - longest_call, longest_call);
  if (before.size() < longest_call) return true;
  if (before[0] == by_table && before[1] == call_by_table)
    return is_import_of_runtime(*module, relative(before, 2, after));
  if (before[1] != call) return true;
  uint64_t stub = relative(before, 2, after);
  if (in_runtime(reinterpret_cast<const void *>(stub + module->base))) return true;
  std::vector<unsigned char> jump = bytes(stub, longest_stub);
  for (size_t i = 0; i + 6 <= jump.size() && i < 12; i++)  // after endbr64 or a prefix
    if (jump[i] == by_table && jump[i + 1] == jump_by_table)
      return is_import_of_runtime(*module, relative(jump, i + 2, stub + i + 6));
  return false;
#else
  return code;  // unknown
#endif
}
