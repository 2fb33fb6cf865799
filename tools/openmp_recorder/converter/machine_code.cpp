#include "machine_code.hpp"

#include <algorithm>
#include <cstdio>
#include <cstdlib>
#include <cstring>

#include "source.hpp"

namespace {
// Instructions: what takes long has its sample at the next one, or soon behind; where it is tried anew, before it. An
// atomic operation that has begun is ended first: a sample before it waited for something else, as after a branch.
constexpr unsigned most_back = 3, most_ahead = 2;
constexpr unsigned longest_wait = 12;  // of a loop in which a thread waits for another one

bool begins_with(const std::string &word, std::initializer_list<const char *> starts) {
  return std::any_of(starts.begin(), starts.end(), [&](auto *start) { return !word.rfind(start, 0); });
}

// `add` of `lock addq $0x1,(%rax)`; the rest has the operands.
std::string name_of(const std::string &instruction, std::string *rest = nullptr) {
  size_t begin = 0, end = 0;
  std::string name;
  do {
    begin = instruction.find_first_not_of(" \t", end);
    if (begin == std::string::npos) return name;
    end = std::min(instruction.find_first_of(" \t", begin), instruction.size());
    name = instruction.substr(begin, end - begin);
  } while (begins_with(name, {"lock", "bnd", "notrack", "data16", "rep"}));
  if (rest) *rest = instruction.substr(end, instruction.find_first_of("#<", end) - end);
  return name;
}

// At the commas that stand in no brackets.
std::vector<std::string> operands_of(const std::string &rest) {
  std::vector<std::string> out(1);
  int depth = 0;
  for (char c : rest) {
    depth += (c == '(') - (c == ')');
    if (c == ',' && !depth) out.emplace_back();
    else if (c != ' ' && c != '\t') out.back() += c;
  }
  return out;
}

// As DWARF numbers them, of whatever width; -1 of all others.
int register_of(std::string name) {
  if (name.size() < 3 || name[0] != '%') return -1;
  name.erase(0, 1);
  if (name[0] == 'r' && name[1] >= '0' && name[1] <= '9') {
    int number = std::atoi(name.c_str() + 1);
    return number < static_cast<int>(log_form::general_registers) ? number : -1;
  }
  if (name.size() == 3 && (name[0] == 'r' || name[0] == 'e')) name.erase(0, 1);
  if (name.size() == 2 && (name[1] == 'l' || name[1] == 'h')) name[1] = 'x';
  constexpr const char *names[] = {"ax", "dx", "cx", "bx", "si", "di", "bp", "sp"};
  for (int i = 0; i < 8; i++)
    if (!name.compare(0, 2, names[i]) && name.size() < 4) return i;
  return -1;
}

bool is_memory(const std::string &operand) {
  if (operand.find(':') != std::string::npos) return false;  // of the thread's own, or of a string
  return operand.find('(') != std::string::npos || !operand.compare(0, 2, "0x");
}

// The last operand is what an instruction writes, but for those that only compare, and those with one that read it.
bool writes_last(const std::string &name, size_t operands) {
  if (begins_with(name, {"cmpxchg", "xchg", "xadd"})) return true;
  if (operands == 1) return begins_with(name, {"inc", "dec", "not", "neg", "set", "fst", "fist", "pop"});
  return !begins_with(name, {"cmp", "test", "ucomi", "comi", "vucomi", "vcomi", "ptest", "vptest", "push"}) &&
         name != "bt" && name != "btl" && name != "btq";
}
}  // namespace

bool goes_elsewhere(const std::string &instruction) {
  return begins_with(name_of(instruction), {"j", "call", "ret", "leave", "syscall"});
}

int written_register(const std::string &instruction) {
  std::string rest, name = name_of(instruction, &rest);
  std::vector<std::string> all = operands_of(rest);
  return writes_last(name, all.size()) || begins_with(name, {"lea"}) ? register_of(all.back()) : -1;
}

namespace {
// That of an operand such as `0x10(%rax,%rcx,8)`.
std::optional<MemoryUse> address_in(const std::string &operand, const std::string &instruction) {
  MemoryUse use{0};
  size_t bracket = std::min(operand.find('('), operand.size());
  use.displacement = std::strtoull(operand.c_str(), nullptr, 16);
  std::string inside = bracket < operand.size() ? operand.substr(bracket + 1, operand.find(')') - bracket - 1) : "";
  use.of_file = inside == "%rip";
  if (size_t comment = instruction.find("# "); use.of_file) {
    if (comment == std::string::npos) return std::nullopt;
    use.displacement = std::strtoull(instruction.c_str() + comment + 2, nullptr, 16);
  } else if (!inside.empty()) {
    std::vector<std::string> parts = operands_of(inside);
    use.base = register_of(parts[0]);
    if (parts.size() > 1) use.index = register_of(parts[1]);
    if (parts.size() > 2) use.scale = static_cast<unsigned>(std::atoi(parts[2].c_str()));
    if ((!parts[0].empty() && use.base < 0) || (parts.size() > 1 && use.index < 0)) return std::nullopt;
  }
  return use;
}

// What a register grows by: a number such as `$0x10`, or another register; how often.
std::optional<Increment> step_by(const std::string &operand, int64_t times) {
  if (operand[0] == '$')
    return Increment{times * static_cast<int64_t>(std::strtoull(operand.c_str() + 1, nullptr, 16)), -1, times};
  int by = register_of(operand);
  return by < 0 ? std::nullopt : std::optional<Increment>({0, by, times});
}
}  // namespace

std::optional<Increment> step_of(const std::string &instruction, int of) {
  std::string rest, name = name_of(instruction, &rest);
  std::vector<std::string> all = operands_of(rest);
  bool is_less = begins_with(name, {"sub", "dec"});
  if (begins_with(name, {"inc", "dec"})) return Increment{is_less ? -1 : 1, -1, 1};
  if (begins_with(name, {"add", "sub"}) && all.size() == 2) return step_by(all[0], is_less ? -1 : 1);
  std::optional<MemoryUse> sum;
  if (begins_with(name, {"lea"})) sum = address_in(all[0], instruction);
  if (!sum || sum->of_file || (sum->base != of && (sum->index != of || sum->scale != 1))) return std::nullopt;
  bool is_base = sum->base == of;
  return Increment{static_cast<int64_t>(sum->displacement), is_base ? sum->index : sum->base, is_base ? sum->scale : 1};
}

std::optional<uint64_t> jump_target(const std::string &instruction) {
  std::string rest, name = name_of(instruction, &rest);
  size_t at = rest.find_first_not_of(" \t");
  if (name[0] != 'j' || at == std::string::npos || rest[at] == '*') return std::nullopt;
  return std::strtoull(rest.c_str() + at, nullptr, 16);
}

std::optional<Compared> compared(const std::string &instruction) {
  std::string rest, name = name_of(instruction, &rest);
  if (!begins_with(name, {"cmp", "add", "sub", "inc", "dec", "test"})) return std::nullopt;
  std::vector<std::string> all = operands_of(rest);
  auto number = [](const std::string &operand) {
    return operand[0] == '$' ? static_cast<int64_t>(std::strtoull(operand.c_str() + 1, nullptr, 16)) : 0;
  };
  Compared found{register_of(all.back())};  // all others end at 0
  if (begins_with(name, {"cmp"}) && all.size() == 2) found.other = register_of(all[0]), found.number = number(all[0]);
  return found;
}

std::optional<MemoryUse> memory_use(const std::string &instruction) {
  std::string rest, name = name_of(instruction, &rest);
  if (begins_with(name, {"lea", "nop", "prefetch"}) || goes_elsewhere(instruction)) return std::nullopt;
  std::vector<std::string> all = operands_of(rest);
  auto found = std::find_if(all.begin(), all.end(), is_memory);
  std::optional<MemoryUse> known = found == all.end() ? std::nullopt : address_in(*found, instruction);
  if (!known) return std::nullopt;
  MemoryUse use = *known;
  use.writes = found + 1 == all.end() && writes_last(name, all.size());
  use.is_atomic = begins_with(instruction, {"lock", "xchg"});
  return use;
}

unsigned bytes_at(const std::string &instruction) {
  std::string name = name_of(instruction);
  if (name[0] == 'v') name.erase(0, 1);
  bool is_scalar = name.size() > 1 && name[name.size() - 2] == 's' && (name.back() == 's' || name.back() == 'd');
  if (is_scalar || begins_with(name, {"movh", "movl", "movsd", "movss", "pinsr", "pextr"}) || name == "movq" ||
      name == "movd")
    return 8;
  for (auto [vector, bytes] : {std::pair{"%zmm", 64}, {"%ymm", 32}, {"%xmm", 16}})
    if (instruction.find(vector) != std::string::npos) return static_cast<unsigned>(bytes);
  return 8;
}

// A line is `  4014a5:<tab>add    $0x1,%rax`.
Instructions disassembled(const ModuleOfRun &module, uint64_t first, uint64_t end) {
  char range[96];
  snprintf(range, sizeof range, " --start-address=0x%zx --stop-address=0x%zx ", static_cast<size_t>(first),
           static_cast<size_t>(end));
  std::string command = "objdump -d --no-show-raw-insn" + std::string(range) + quoted(module.path) + " 2>/dev/null";
  Instructions out;
  FILE *lines = popen(command.c_str(), "r");
  char line[512];
  while (lines && fgets(line, sizeof line, lines)) {
    char *behind = nullptr;
    uint64_t at = std::strtoull(line, &behind, 16);
    if (behind != line && behind[0] == ':' && behind[1] == '\t')
      out[at] = std::string(behind + 2, strcspn(behind + 2, "\n"));
  }
  if (lines) pclose(lines);
  return out;
}

namespace {
using Place = Instructions::const_iterator;

// The jump behind this instruction that goes back to it or to one before it; the end where none is near.
Place jump_back(const Instructions &all, Place here) {
  uint64_t code = here->first;
  for (unsigned i = 0; i < longest_wait && here != all.end(); i++, ++here) {
    if (!goes_elsewhere(here->second)) continue;
    std::optional<uint64_t> target = jump_target(here->second);
    if (target && *target <= code) return here;
    if (!target || name_of(here->second) == "jmp") break;
  }
  return all.end();
}

bool is_constant(const std::string &name, const std::vector<std::string> &all) {
  return name == "xor" ? all.front() == all.back() : begins_with(name, {"mov"}) && all.front()[0] == '$';
}

// A compare and exchange with a constant takes a lock; with what was read before it is part of an update.
bool takes_lock(Place begin, Place end) {
  return std::any_of(begin, end, [](auto &one) {
    std::string rest, name = name_of(one.second, &rest);
    std::vector<std::string> all = operands_of(rest);
    return is_constant(name, all) && register_of(all.back()) == 0;
  });
}

bool is_fence(const std::string &instruction) {
  return instruction.find("$0x0,(%rsp)") != std::string::npos && !instruction.rfind("lock or", 0);
}

// Done again, it leaves the same behind, while no other thread writes the memory that it reads.
bool changes_nothing(const std::string &instruction) {
  std::string rest, name = name_of(instruction, &rest);
  if (name == "xor") return is_constant(name, operands_of(rest));
  if (name == "xchg") return memory_use(instruction).has_value();
  return jump_target(instruction) || is_fence(instruction) ||
         (begins_with(name, {"mov", "cmp", "test", "and", "set", "pause", "nop", "lfence", "mfence"}) &&
          rest.find("%es:") == std::string::npos);
}

bool is_any_of(const std::vector<int> &registers, int number) {
  return number >= 0 && std::find(registers.begin(), registers.end(), number) != registers.end();
}
}  // namespace

std::optional<uint64_t> waits_in_loop(const Instructions &all, uint64_t code) {
  auto here = all.find(code);
  Place jump = here == all.end() ? here : jump_back(all, here);
  if (jump == all.end()) return std::nullopt;
  Place begin = all.find(*jump_target(jump->second)), end = std::next(jump);
  if (begin == all.end() || std::distance(begin, end) > longest_wait) return std::nullopt;
  std::vector<int> written;
  for (Place one = begin; one != end; ++one) written.push_back(written_register(one->second));
  std::optional<uint64_t> out;
  for (Place one = begin; one != end; ++one) {
    bool exchanges = begins_with(name_of(one->second), {"cmpxchg"});
    if (exchanges ? !takes_lock(begin, end) : !changes_nothing(one->second)) return std::nullopt;
    std::optional<MemoryUse> use = memory_use(one->second);
    if (!use || is_fence(one->second)) continue;
    if (use->writes && !use->is_atomic) return std::nullopt;
    if (is_any_of(written, use->base) || is_any_of(written, use->index)) return std::nullopt;
    out = one->first;
  }
  return out;
}

std::vector<MemoryUse> used_near(const Instructions &all, uint64_t code) {
  std::vector<MemoryUse> out;
  std::vector<int> written;
  auto add = [&](Instructions::const_iterator one, bool is_ahead) {
    std::optional<MemoryUse> use = memory_use(one->second);
    if (is_ahead && use && use->is_atomic) return;
    if (!use || is_any_of(written, use->base) || is_any_of(written, use->index)) return;
    use->code = one->first;
    out.push_back(*use);
  };
  auto here = all.find(code), back = here;
  for (unsigned i = 0; i < most_back && back != all.begin() && back != all.end(); i++) {
    --back;
    if (goes_elsewhere(back->second)) break;
    written.push_back(written_register(back->second));
    add(back, false);
  }
  written.clear();
  for (unsigned i = 0; i < most_ahead && here != all.end() && !goes_elsewhere(here->second); i++, ++here) {
    add(here, true);
    written.push_back(written_register(here->second));
  }
  return out;
}

uint64_t address_of(const MemoryUse &use, const Registers &registers, const ModuleOfRun &module) {
  auto value = [&](int number) { return number < 0 ? 0 : registers[static_cast<size_t>(number)]; };
  return (use.of_file ? module.base : 0) + use.displacement + value(use.base) + use.scale * value(use.index);
}
