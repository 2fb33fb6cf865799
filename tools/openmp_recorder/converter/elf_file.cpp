#include "elf_file.hpp"

#include <algorithm>
#include <cstring>
#include <filesystem>
#include <fstream>

namespace {
std::string whole(const std::string &path) {
  std::error_code wrong;
  if (!std::filesystem::is_regular_file(path, wrong)) return {};
  std::ifstream in(path, std::ios::binary | std::ios::ate);
  if (!in) return {};
  std::string bytes(static_cast<size_t>(in.tellg()), 0);
  in.seekg(0).read(bytes.data(), static_cast<std::streamsize>(bytes.size()));
  bytes.resize(static_cast<size_t>(in.gcount()));
  return bytes;
}

// The last option of its kind counts: `GNU C17 12.2.0 -g -O2 -fopenmp`.
bool optimises(std::string_view producer) {
  constexpr std::string_view option = " -O";
  size_t at = producer.rfind(option);
  if (producer.substr(0, 4) != "GNU " || at == std::string_view::npos) return false;
  std::string_view level = producer.substr(at + option.size());
  level = level.substr(0, level.find(' '));
  return level != "0" && level != "g";
}
}  // namespace

template <class T>
std::vector<T> ElfFile::table(uint64_t offset, uint64_t bytes) const {
  if (offset > file.size() || bytes > file.size() - offset) return {};
  std::vector<T> out(bytes / sizeof(T));
  std::memcpy(out.data(), file.data() + offset, out.size() * sizeof(T));
  return out;
}

ElfFile::ElfFile(const std::string &path) : file(whole(path)) {
  std::vector<Elf64_Ehdr> head = table<Elf64_Ehdr>(0, sizeof(Elf64_Ehdr));
  if (head.empty() || std::memcmp(head[0].e_ident, ELFMAG, SELFMAG) || head[0].e_ident[EI_CLASS] != ELFCLASS64) return;
  auto sections = table<Elf64_Shdr>(head[0].e_shoff, uint64_t{head[0].e_shnum} * sizeof(Elf64_Shdr));
  for (const Elf64_Shdr &section : sections)
    if (section.sh_type == SHT_DYNSYM) read_symbols(sections, section);
  for (const Elf64_Shdr &section : sections)
    if (section.sh_type == SHT_DYNSYM || section.sh_type == SHT_SYMTAB) read_functions(sections, section);
  auto is_before = [](const Function &one, const Function &other) { return one.begin < other.begin; };
  std::stable_sort(functions.begin(), functions.end(), is_before);
}

void ElfFile::read_functions(const std::vector<Elf64_Shdr> &sections, const Elf64_Shdr &table_of) {
  if (table_of.sh_link >= sections.size()) return;
  const Elf64_Shdr &strings = sections[table_of.sh_link];
  if (strings.sh_offset > file.size()) return;
  std::string_view words = std::string_view(file).substr(strings.sh_offset, strings.sh_size);
  for (const Elf64_Sym &one : table<Elf64_Sym>(table_of.sh_offset, table_of.sh_size)) {
    bool is_code = ELF64_ST_TYPE(one.st_info) == STT_FUNC || ELF64_ST_TYPE(one.st_info) == STT_GNU_IFUNC;
    if (!is_code || one.st_shndx == SHN_UNDEF || !one.st_size || one.st_name >= words.size()) continue;
    std::string_view name = words.substr(one.st_name);
    functions.push_back({one.st_value, one.st_value + one.st_size, name.substr(0, name.find('\0'))});
  }
}

std::optional<ElfFile::Symbol> ElfFile::function_at(uint64_t address) const {
  auto is_behind = [](uint64_t at, const Function &one) { return at < one.begin; };
  auto behind = std::upper_bound(functions.begin(), functions.end(), address, is_behind);
  if (behind == functions.begin() || (behind - 1)->end <= address) return {};
  return Symbol{(behind - 1)->name, address - (behind - 1)->begin};
}

void ElfFile::read_symbols(const std::vector<Elf64_Shdr> &sections, const Elf64_Shdr &dynamic) {
  if (dynamic.sh_link >= sections.size()) return;
  const Elf64_Shdr &strings = sections[dynamic.sh_link];
  symbols = table<Elf64_Sym>(dynamic.sh_offset, dynamic.sh_size);
  if (strings.sh_offset <= file.size()) names = std::string_view(file).substr(strings.sh_offset, strings.sh_size);
  for (const Elf64_Shdr &section : sections) {
    if (section.sh_type != SHT_RELA) continue;
    for (const Elf64_Rela &one : table<Elf64_Rela>(section.sh_offset, section.sh_size))
      if (uint64_t number = ELF64_R_SYM(one.r_info)) imports[one.r_offset] = number;
  }
}

std::string_view ElfFile::name_of(const Elf64_Sym &symbol) const {
  std::string_view rest = names.substr(std::min<size_t>(symbol.st_name, names.size()));
  return rest.substr(0, rest.find('\0'));
}

bool ElfFile::defines(std::string_view name) const {
  return std::any_of(symbols.begin(), symbols.end(),
                     [&](auto &one) { return one.st_shndx != SHN_UNDEF && name_of(one) == name; });
}

std::string_view ElfFile::import_at(uint64_t address) const {
  auto found = imports.find(address);
  return found == imports.end() || found->second >= symbols.size() ? std::string_view()
                                                                   : name_of(symbols[found->second]);
}

bool ElfFile::is_optimised_by_gcc() const {
  constexpr std::string_view option = " -fopenmp";
  const std::string_view all = file;
  for (size_t at = all.find(option); at != std::string_view::npos; at = all.find(option, at + 1)) {
    size_t begin = all.rfind('\0', at) + 1;
    if (optimises(all.substr(begin, all.find('\0', at) - begin))) return true;
  }
  return false;
}

std::string_view ElfFile::bytes_at(uint64_t address, uint64_t count) const {
  std::vector<Elf64_Ehdr> head = table<Elf64_Ehdr>(0, sizeof(Elf64_Ehdr));
  if (head.empty()) return {};
  for (const Elf64_Phdr &part : table<Elf64_Phdr>(head[0].e_phoff, uint64_t{head[0].e_phnum} * sizeof(Elf64_Phdr))) {
    if (part.p_type != PT_LOAD || address < part.p_vaddr || address - part.p_vaddr >= part.p_filesz) continue;
    uint64_t within = address - part.p_vaddr;
    if (part.p_offset + within > file.size()) return {};
    return std::string_view(file).substr(part.p_offset + within, std::min(count, part.p_filesz - within));
  }
  return {};
}
