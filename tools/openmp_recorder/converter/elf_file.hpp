// What a module's file tells of its code, at addresses as the file has them.
#pragma once
#include <elf.h>

#include <cstdint>
#include <optional>
#include <string>
#include <string_view>
#include <unordered_map>
#include <vector>

class ElfFile {
 public:
  explicit ElfFile(const std::string &path);  // one that cannot be read has nothing
  struct Symbol {
    std::string_view name;
    uint64_t offset;  // of the address, in it
  };
  std::optional<Symbol> function_at(uint64_t address) const;
  bool defines(std::string_view name) const;
  std::string_view import_at(uint64_t address) const;  // the function of another module whose address is put there
  std::string_view bytes_at(uint64_t address, uint64_t count) const;  // less where the file has less
  bool is_optimised_by_gcc() const;  // OpenMP's constructs in it, or some of them, as its debug information tells

 private:
  std::string file;
  std::vector<Elf64_Sym> symbols;
  struct Function {
    uint64_t begin, end;
    std::string_view name;
  };
  std::vector<Function> functions;  // by their beginnings
  std::string_view names;
  std::unordered_map<uint64_t, uint64_t> imports;  // by address, the number of the symbol

  template <class T>
  std::vector<T> table(uint64_t offset, uint64_t bytes) const;
  void read_functions(const std::vector<Elf64_Shdr> &sections, const Elf64_Shdr &table_of);
  std::string_view name_of(const Elf64_Sym &symbol) const;
  void read_symbols(const std::vector<Elf64_Shdr> &sections, const Elf64_Shdr &dynamic);
};
