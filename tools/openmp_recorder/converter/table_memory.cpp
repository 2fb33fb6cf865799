#include "table_memory.hpp"

#include <fcntl.h>
#include <sys/mman.h>
#include <unistd.h>

#include <algorithm>
#include <array>
#include <cstdlib>
#include <cstring>
#include <deque>
#include <map>
#include <new>
#include <utility>
#include <vector>

#include "files.hpp"

namespace {
using table_memory::Most;
constexpr std::size_t grain = 16, most_grains = 1 << 13;  // what is larger has pages of its own
constexpr std::size_t extent = 16 << 20, huge_page = 2 << 20, copied_at_once = 4 << 20;
constexpr std::size_t let_go_at_least = 32 << 20;

std::size_t page_size() {
  static const auto page = static_cast<std::size_t>(sysconf(_SC_PAGESIZE));
  return page;
}

std::size_t in_pages(std::size_t bytes) { return (bytes + page_size() - 1) / page_size() * page_size(); }

// Of the whole process; 0 where that cannot be read.
std::size_t resident() {
  static const int file = open("/proc/self/statm", O_RDONLY | O_CLOEXEC);
  char words[64] = {};
  if (pread(file, words, sizeof words - 1, 0) <= 0) return 0;
  char *second = nullptr;
  std::strtoull(words, &second, 10);
  return page_size() * std::strtoull(second, nullptr, 10);
}

// Pages of the process's own; large ones, where it takes a whole number of them.
char *new_pages(std::size_t bytes) {
  std::size_t more = bytes % huge_page ? 0 : huge_page;
  void *memory = mmap(nullptr, bytes + more, PROT_READ | PROT_WRITE, MAP_PRIVATE | MAP_ANONYMOUS, -1, 0);
  if (memory == MAP_FAILED) throw std::bad_alloc();
  char *first = static_cast<char *>(memory), *end = first + bytes + more;
  if (!more) return first;
  std::size_t before = (huge_page - reinterpret_cast<std::uintptr_t>(first) % huge_page) % huge_page;
  if (before) munmap(first, before);
  if (more > before) munmap(end - (more - before), more - before);
  madvise(first + before, bytes, MADV_HUGEPAGE);
  return first + before;
}

class Memory {
 public:
  void stand_beside(const std::string &first_name, const Most &chosen);
  void *get(std::size_t bytes);
  void give_back(void *memory, std::size_t bytes);
  void stay_within() {
    if (bytes_of_all > most.tables && !beside.empty() && resident() > limit) let_go();
  }

 private:
  struct Extent {
    std::size_t bytes;
    off_t at;  // in the file; -1 where it is not there
  };
  std::string beside;
  Most most;
  std::size_t limit = 0;  // of what is resident
  int file = -1;
  off_t end = 0;  // of the file
  std::map<char *, Extent> extents;
  std::deque<char *> in_memory;  // of them, the first made first; some may be given back
  std::size_t bytes_of_all = 0;
  std::array<void *, most_grains + 1> given_back{};  // by their grains; each begins with the address of the next
  char *free_from = nullptr;
  std::size_t left = 0;  // from there on
  char *pages(std::size_t bytes);
  void give_back_pages(char *memory, std::size_t bytes);
  void let_go();
  bool put_in_file(char *memory, Extent &one);
  void put_first_in_file();
};

void Memory::stand_beside(const std::string &first_name, const Most &chosen) {
  beside = first_name, most = chosen;
  limit = most.resident;
}

void *Memory::get(std::size_t bytes) {
  std::size_t grains = (bytes + grain - 1) / grain;
  if (grains > most_grains) return pages(in_pages(bytes));
  if (void *found = given_back[grains]) {
    std::memcpy(&given_back[grains], found, sizeof found);
    return found;
  }
  if (left < grains * grain) free_from = pages(extent), left = extent;
  left -= grains * grain;
  return std::exchange(free_from, free_from + grains * grain);
}

void Memory::give_back(void *memory, std::size_t bytes) {
  std::size_t grains = (bytes + grain - 1) / grain;
  if (!memory || !grains) return;
  if (grains > most_grains) return give_back_pages(static_cast<char *>(memory), in_pages(bytes));
  std::memcpy(memory, &given_back[grains], sizeof memory);
  given_back[grains] = memory;
}

char *Memory::pages(std::size_t bytes) {
  char *memory = new_pages(bytes);
  for (std::size_t at = 0; at < bytes; at += extent) {
    extents[memory + at] = {std::min(extent, bytes - at), -1};
    in_memory.push_back(memory + at);
  }
  bytes_of_all += bytes;
  return memory;
}

void Memory::give_back_pages(char *memory, std::size_t bytes) {
  munmap(memory, bytes);
  bytes_of_all -= bytes;
  for (std::size_t at = 0; at < bytes; at += extent) {
    auto found = extents.find(memory + at);
    if (off_t in_file = found->second.at; in_file >= 0)
      fallocate(file, FALLOC_FL_PUNCH_HOLE | FALLOC_FL_KEEP_SIZE, in_file, static_cast<off_t>(found->second.bytes));
    extents.erase(found);
  }
}

// False where the disk has no room: then it stays in memory.
bool Memory::put_in_file(char *memory, Extent &one) {
  for (std::size_t done = 0; done < one.bytes;) {
    ssize_t more = pwrite(file, memory + done, one.bytes - done, end + static_cast<off_t>(done));
    if (more <= 0) return false;
    done += static_cast<std::size_t>(more);
  }
  int of_both = MAP_SHARED | MAP_FIXED;
  if (mmap(memory, one.bytes, PROT_READ | PROT_WRITE, of_both, file, end) == MAP_FAILED) return false;
  one.at = std::exchange(end, end + static_cast<off_t>(one.bytes));
  return true;
}

// But for the one that is being filled, and for those of which no page was used so far.
void Memory::put_first_in_file() {
  if (file < 0) file = nameless_file(beside);
  std::vector<unsigned char> used(extent / page_size());
  for (std::size_t count = in_memory.size(); file >= 0 && count; count--) {
    char *memory = in_memory.front();
    auto found = extents.find(memory);
    bool is_there = found != extents.end() && found->second.at < 0, is_filled = memory + extent == free_from + left;
    in_memory.pop_front();
    if (!is_there) continue;
    bool is_used = !mincore(memory, found->second.bytes, used.data()) &&
                   std::any_of(used.begin(), used.end(), [](unsigned char one) { return one & 1; });
    if (is_filled || !is_used) in_memory.push_back(memory);
    else if (!put_in_file(memory, found->second)) return in_memory.push_back(memory);
    else if (resident() + let_go_at_least < most.resident) return;
  }
}

void Memory::let_go() {
  for (auto &[memory, one] : extents)
    if (one.at >= 0) madvise(memory, one.bytes, MADV_DONTNEED);
  if (resident() + let_go_at_least > most.resident) put_first_in_file();
  limit = std::max(most.resident, resident() + let_go_at_least / 2);
}

// Until the end of the process: what is in it may be given back after all else.
Memory &all() {
  static Memory &memory = *new Memory;
  return memory;
}
}  // namespace

namespace table_memory {
void stand_beside(const std::string &first_name, const Most &most) { all().stand_beside(first_name, most); }

void *get(std::size_t bytes) { return all().get(bytes); }

void give_back(void *memory, std::size_t bytes) { all().give_back(memory, bytes); }

void *get_more(void *memory, std::size_t room, std::size_t used, std::size_t more) {
  char *to = static_cast<char *>(get(more));
  for (std::size_t at = 0; at < used; at += copied_at_once) {
    std::memcpy(to + at, static_cast<char *>(memory) + at, std::min(copied_at_once, used - at));
    if (used > copied_at_once) stay_within();
  }
  give_back(memory, room);
  return to;
}

void stay_within() { all().stay_within(); }
}  // namespace table_memory
