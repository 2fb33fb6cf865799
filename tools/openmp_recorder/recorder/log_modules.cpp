#include "log_modules.hpp"

#include <fcntl.h>
#include <link.h>
#include <unistd.h>

#include <atomic>
#include <cinttypes>
#include <cstdio>

#include "callers.hpp"
#include "log_form.hpp"

namespace {
// Of libraries opened and closed, as the loader counts them: where it is the same there is nothing new.
std::atomic<uint64_t> written_changes{0};

uint64_t changes_of(const dl_phdr_info &any) { return any.dlpi_adds + any.dlpi_subs; }

// The numbers are the loader's, the same with each module, so it stops at the first.
int read_changes(dl_phdr_info *any, size_t, void *changes) {
  *static_cast<uint64_t *>(changes) = changes_of(*any);
  return 1;
}

// `BASE FIRST END WHAT PATH` of each executable segment; without a path it is the program's own.
// The loader holds its lock around this, so no library comes or goes between the count and the list.
int write_module(dl_phdr_info *module, size_t, void *to) {
  written_changes = changes_of(*module);
  for (int i = 0; i < module->dlpi_phnum; i++) {
    const ElfW(Phdr) &segment = module->dlpi_phdr[i];
    if (segment.p_type != PT_LOAD || !(segment.p_flags & PF_X)) continue;
    uint64_t first = module->dlpi_addr + segment.p_vaddr;
    const char *what = runtime_code.has(reinterpret_cast<const void *>(first)) ? "runtime" : "module";
    dprintf(*static_cast<int *>(to), "%" PRIx64 " %" PRIx64 " %" PRIx64 " %s %s\n", uint64_t{module->dlpi_addr}, first,
            first + segment.p_memsz, what, module->dlpi_name);
  }
  return 0;
}
}  // namespace

// The whole list is appended each time: a library that was closed keeps its line, since records before name its code.
// Two threads may do so at once, and then the same lines stand there twice.
void write_modules(const std::string &folder) {
  std::string path = folder + log_form::modules_file;
  int file = open(path.c_str(), O_WRONLY | O_CREAT | O_APPEND | O_CLOEXEC, 0666);
  if (file < 0) return;
  dl_iterate_phdr(write_module, &file);
  close(file);
}

void tell_new_modules(const std::string &folder) {
  uint64_t changes = 0;
  dl_iterate_phdr(read_changes, &changes);
  if (changes != written_changes) write_modules(folder);
}
