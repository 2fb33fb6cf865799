// The modules that the recorded program had loaded: its own file, libraries, and the OpenMP runtime.
#pragma once
#include <cstdint>
#include <memory>
#include <string>
#include <vector>

#include "elf_file.hpp"

struct ModuleOfRun {
  uint64_t base, first, end;  // where it was loaded; an executable segment of it
  bool is_runtime;
  std::string path;
  std::shared_ptr<ElfFile> file;
  mutable std::optional<bool> of_gcc;  // once that was asked
  bool has(uint64_t address) const { return first <= address && address < end; }
  bool is_optimised_by_gcc() const;
};

class ModulesOfRun {
 public:
  void read(const std::string &list, const std::string &program);
  const ModuleOfRun *of(const void *code) const;  // null where none is known
  bool in_runtime(const void *code) const;
  bool follows_call_of_runtime(const void *code) const;  // true where that cannot be known
  bool begins_construct(const void *code) const;  // of gcc's: its function begins before this place

 private:
  std::vector<ModuleOfRun> all;  // of two at one place the later one is last
  void add(const std::string &line, const std::string &program);
  bool is_import_of_runtime(const ModuleOfRun &module, uint64_t entry) const;
};
