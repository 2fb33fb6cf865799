#include "modules.hpp"

#include <link.h>

#include <algorithm>

namespace {
struct Relocations {
  const ElfW(Rela) *first = nullptr;
  size_t bytes = 0;
};

// A call of another module's function goes through an address that a relocation by the function's name sets.
class Module {
 public:
  explicit Module(const dl_phdr_info &of) : base(of.dlpi_addr) {
    for (int i = 0; i < of.dlpi_phnum; i++)
      if (of.dlpi_phdr[i].p_type == PT_DYNAMIC)
        read(reinterpret_cast<const ElfW(Dyn) *>(base + of.dlpi_phdr[i].p_vaddr));
  }
  bool calls(const std::string &name) const { return has(of_calls, name) || has(of_data, name); }

 private:
  ElfW(Addr) base;
  const ElfW(Sym) *symbols = nullptr;
  const char *names = nullptr;
  Relocations of_calls, of_data;

  // The loader has made most addresses of the table absolute.
  template <class Entry>
  const Entry *at(ElfW(Addr) address) const {
    return reinterpret_cast<const Entry *>(address < base ? base + address : address);
  }
  void read(const ElfW(Dyn) * entry);
  bool has(const Relocations &relocations, const std::string &name) const;
};

// It reads what the loader has mapped, and no file: the table ends by DT_NULL.
void Module::read(const ElfW(Dyn) * entry) {
  for (; entry->d_tag != DT_NULL; entry++) {
    switch (entry->d_tag) {
      case DT_SYMTAB: symbols = at<ElfW(Sym)>(entry->d_un.d_ptr); break;
      case DT_STRTAB: names = at<char>(entry->d_un.d_ptr); break;
      case DT_JMPREL: of_calls.first = at<ElfW(Rela)>(entry->d_un.d_ptr); break;
      case DT_PLTRELSZ: of_calls.bytes = entry->d_un.d_val; break;
      case DT_RELA: of_data.first = at<ElfW(Rela)>(entry->d_un.d_ptr); break;
      case DT_RELASZ: of_data.bytes = entry->d_un.d_val; break;
    }
  }
}

// Each relocation is compared by its name, so only once a run, while recording begins.
bool Module::has(const Relocations &relocations, const std::string &name) const {
  if (!relocations.first || !symbols || !names) return false;
  const ElfW(Rela) *end = relocations.first + relocations.bytes / sizeof(ElfW(Rela));
  return std::any_of(relocations.first, end, [&](const ElfW(Rela) & one) {
    const ElfW(Sym) &symbol = symbols[ELF64_R_SYM(one.r_info)];
    return symbol.st_shndx == SHN_UNDEF && name == names + symbol.st_name;
  });
}

// The loader holds its lock around this: open or look up nothing here.
int calls_all(dl_phdr_info *of, size_t, void *names) {
  Module module(*of);
  auto &all = *static_cast<const std::vector<std::string> *>(names);
  return std::all_of(all.begin(), all.end(), [&](auto &name) { return module.calls(name); });
}
}  // namespace

// Once, while recording begins. It stops at the first module that fits.
bool one_module_calls(const std::vector<std::string> &names) {
  return dl_iterate_phdr(calls_all, const_cast<std::vector<std::string> *>(&names));
}
