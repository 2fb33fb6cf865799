#include "run_files.hpp"

#include <fcntl.h>
#include <sys/file.h>
#include <sys/stat.h>
#include <unistd.h>

#include <cstdlib>

#include "log_form.hpp"

namespace {
constexpr const char *ending = ".spanprof";
constexpr int64_t latest_start = 10000000;  // nanoseconds: so much later than the process may the program seem to begin

bool is_number(const std::string &word) {
  return !word.empty() && word.find_first_not_of("0123456789") == std::string::npos;
}

bool exists(const std::string &path) { return !access(path.c_str(), F_OK); }

bool is_older(const std::string &file, int64_t began) {
  struct stat about {};
  return !stat(file.c_str(), &about) && int64_t{about.st_mtim.tv_sec} * 1000000000 + about.st_mtim.tv_nsec < began;
}

bool is_in_use(const std::string &log) {
  int head = open((log + log_form::head_file).c_str(), O_RDONLY | O_CLOEXEC);
  bool locked = head >= 0 && flock(head, LOCK_EX | LOCK_NB);
  if (head >= 0) close(head);
  return locked;
}

// Before it went over to this program by `exec`, or an earlier one that had its number.
bool is_by_this_process(const std::string &file) {
  log_form::Head head{};
  int opened = open(file.c_str(), O_RDONLY | O_CLOEXEC);
  bool is_read = opened >= 0 && read(opened, &head, sizeof head) == sizeof head;
  if (opened >= 0) close(opened);
  return is_read && head.process == static_cast<uint32_t>(getpid());
}

// Another process of this run writes it, or has written it, or this one has.
bool is_of_this_run(const std::string &recording, int64_t began) {
  std::string log = recording + log_form::log_folder, file = log + log_form::head_file;
  if (is_by_this_process(file)) began -= latest_start;
  return is_in_use(log) || (exists(file) && !is_older(file, began));
}

std::string numbered(const std::string &name, int number) {
  return (number == 1 ? name : name + "-" + std::to_string(number)) + ending;
}

std::string first_free(const std::string &name) {
  int number = 1;
  while (exists(numbered(name, number))) number++;
  return numbered(name, number);
}
}  // namespace

// The launchers' variables: the number of a process, and how many there are. Those of OpenMPI, MVAPICH, MPICH (and
// Intel MPI), and of a step of Slurm. A name that has the number already stays.
std::string name_of_rank(const std::string &name) {
  constexpr const char *variables[][2] = {{"OMPI_COMM_WORLD_RANK", "OMPI_COMM_WORLD_SIZE"},
                                          {"MV2_COMM_WORLD_RANK", "MV2_COMM_WORLD_SIZE"},
                                          {"PMI_RANK", "PMI_SIZE"},
                                          {"SLURM_PROCID", "SLURM_STEP_NUM_TASKS"}};
  for (auto [rank, size] : variables) {
    const char *own = getenv(rank), *all = getenv(size);
    if (!own || !all || !is_number(own) || !is_number(all)) continue;
    std::string number = ".rank" + std::string(own);
    return strtoull(all, nullptr, 10) < 2 || name.find(number) != std::string::npos ? name : name + number;
  }
  return name;
}

std::string free_folder(const std::string &name, const std::string &own, bool is_child, int64_t began) {
  if (is_child) return first_free(own);
  for (int number = 1; exists(numbered(name, number)); number++)
    if (is_of_this_run(numbered(name, number), began)) return first_free(own);
  return first_free(name);
}
