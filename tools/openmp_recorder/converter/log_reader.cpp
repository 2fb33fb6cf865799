#include "log_reader.hpp"

#include <errno.h>
#include <fcntl.h>
#include <sys/file.h>
#include <sys/stat.h>
#include <unistd.h>

#include <algorithm>
#include <cstdlib>
#include <cstring>
#include <filesystem>
#include <fstream>
#include <stdexcept>

#include "log_damage.hpp"
#include "thread_reader.hpp"

namespace {
using log_form::Head;

constexpr unsigned long most_without_files = 1000;  // threads

// Whether the program that writes the log holds its head.
bool is_held(const std::string &path) {
  int file = open(path.c_str(), O_RDONLY | O_CLOEXEC);
  bool held = file >= 0 && flock(file, LOCK_EX | LOCK_NB);
  if (file >= 0) close(file);
  return held;
}

Head read_head(const std::string &path) {
  Head head{};
  std::ifstream file(path, std::ios::binary);
  file.read(reinterpret_cast<char *>(&head), sizeof head);
  if (access(path.c_str(), R_OK)) throw std::runtime_error(std::strerror(errno));
  if (!head.magic[0]) throw std::runtime_error("the program ended before recording began");
  if (!file || std::memcmp(head.magic, log_form::magic, sizeof head.magic))
    throw std::runtime_error("no log of the recorder");
  if (head.version != log_form::version)
    throw std::runtime_error("version " + std::to_string(head.version) + " of the log, and this is for version " +
                             std::to_string(log_form::version));
  head.program[sizeof head.program - 1] = 0;
  look_at_head(head);
  return head;
}

// By the names of the threads' files, which count from 0.
unsigned long threads_in(const std::string &folder) {
  const std::string begin = std::string(log_form::thread_file).substr(1);
  unsigned long count = 0, files = 0;
  for (const auto &file : std::filesystem::directory_iterator(folder)) {
    std::string name = file.path().filename();
    if (name.compare(0, begin.size(), begin)) continue;
    files++;
    count = std::max(count, std::strtoul(name.c_str() + begin.size(), nullptr, 10) + 1);
  }
  if (count > files + most_without_files) throw DamagedLog("files of its threads are missing");
  return count;
}

// A thread whose first record came when recording had stopped has no files. A program that was killed while it made
// one, or a disk that was full then, may have left it shorter.
void look_at_last_block(const std::string &thread, const Head &head) {
  struct stat file;
  std::string path = thread + log_form::last_block, name = path.substr(path.rfind('/') + 1);
  if (stat(path.c_str(), &file)) {
    if (access(thread.c_str(), F_OK)) return;
    throw DamagedLog(name + " is missing");
  }
  bool is_whole = !file.st_size || file.st_size == log_form::block_bytes;
  bool is_known = head.how_ended != log_form::HowEnded::Not && head.stopped == log_form::Stopped::End;
  if (is_known && !is_whole) throw DamagedLog(name + " is not as long as a block");
}
}  // namespace

TickTime::TickTime(const Head &head) : first(head.first) {
  if (head.counter != log_form::Counter::TimeStamp) return;
  const log_form::Pair &other = head.how_ended == log_form::HowEnded::Not ? head.second : head.end;
  if (other.ticks > first.ticks)
    tick = static_cast<double>(other.wall - first.wall) / static_cast<double>(other.ticks - first.ticks);
}

LogFolder::LogFolder(const std::string &path) : head(read_head(path + log_form::head_file)) {
  runs = is_held(path + log_form::head_file);
  modules.read(path + log_form::modules_file, head.program);
  paths.read(path + log_form::paths_file);
  unsigned long count = threads_in(path);
  for (unsigned i = 0; i < count; i++) {
    std::string thread = path + log_form::thread_file + std::to_string(i);
    look_at_last_block(thread, head);
    std::string sampled = path + log_form::samples_file + std::to_string(i);
    threads.push_back(std::make_unique<ThreadReader>(thread, i, head, &paths, read_samples(sampled, head, stacks, i)));
  }
}

int64_t LogFolder::wall(const log_form::Pair &pair) const { return TickTime(head).wall(pair.ticks); }
