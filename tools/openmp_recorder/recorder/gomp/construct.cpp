#include "construct.hpp"

#include <elf.h>
#include <fcntl.h>
#include <link.h>
#include <sys/auxv.h>
#include <sys/mman.h>
#include <sys/stat.h>
#include <unistd.h>

#include <algorithm>
#include <cstring>

namespace {
// A file of which nothing is taken on trust: a section beyond its end is none.
struct File {
  const char *begin;
  size_t bytes;
  template <class T>
  const T *at(uint64_t offset, uint64_t count) const {
    bool fits = offset <= bytes && count <= (bytes - offset) / sizeof(T);
    return fits ? reinterpret_cast<const T *>(begin + offset) : nullptr;
  }
};

bool has_section(const File &file, const char *name) {
  auto *head = file.at<ElfW(Ehdr)>(0, 1);
  auto *sections = head ? file.at<ElfW(Shdr)>(head->e_shoff, head->e_shnum) : nullptr;
  if (!sections || head->e_shstrndx >= head->e_shnum) return false;
  const ElfW(Shdr) &of_names = sections[head->e_shstrndx];
  const char *names = file.at<char>(of_names.sh_offset, of_names.sh_size);
  size_t length = strlen(name) + 1;
  return names && std::any_of(sections, sections + head->e_shnum, [&](const ElfW(Shdr) & one) {
           return one.sh_name < of_names.sh_size && length <= of_names.sh_size - one.sh_name &&
                  !memcmp(names + one.sh_name, name, length);
         });
}

// Once, while recording begins. The file is mapped and not read into memory, since programs may be large.
bool program_has_lines() {
  int file = open("/proc/self/exe", O_RDONLY | O_CLOEXEC);
  struct stat status;
  if (file < 0) return false;
  bool is_there = !fstat(file, &status) && status.st_size > 0;
  size_t bytes = is_there ? static_cast<size_t>(status.st_size) : 0;
  void *begin = is_there ? mmap(nullptr, bytes, PROT_READ, MAP_PRIVATE, file, 0) : MAP_FAILED;
  close(file);
  if (begin == MAP_FAILED) return false;
  bool found = has_section({static_cast<const char *>(begin), bytes}, ".debug_line");
  munmap(begin, bytes);
  return found;
}
}  // namespace

// Empty until `find_lines`, and for good where the program has no lines.
CodeRange code_with_lines;

// Before any record: `place_of` reads the range without a lock.
void find_lines() {
  if (program_has_lines()) code_with_lines = code_around(reinterpret_cast<const void *>(getauxval(AT_ENTRY)));
}
