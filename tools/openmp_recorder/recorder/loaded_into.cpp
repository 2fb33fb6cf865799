// Each process of a run says that it began, also one that never comes to OpenMP: a line with its number, how many
// processors it may use and the name of its program, behind those in OUT.processes, where spanprof-record has made that
// file.
#include <errno.h>
#include <fcntl.h>
#include <sched.h>
#include <unistd.h>

#include <cstdlib>
#include <string>

namespace {
// 0 where they are not known: gcc's runtime may have bound the first thread to one of them by now.
int processors() {
  cpu_set_t allowed;
  bool is_bound = getenv("OMP_PROC_BIND") || getenv("OMP_PLACES") || getenv("GOMP_CPU_AFFINITY");
  return is_bound || sched_getaffinity(0, sizeof allowed, &allowed) ? 0 : CPU_COUNT(&allowed);
}

__attribute__((constructor)) void note_process() {
  const char *out = getenv("SPANPROF_OUT");
  int file = out ? open((std::string(out) + ".processes").c_str(), O_WRONLY | O_APPEND | O_CLOEXEC) : -1;
  if (file < 0) return;
  std::string line = std::to_string(getpid()) + " " + std::to_string(processors()) + " ";
  line += program_invocation_short_name + std::string("\n");
  [[maybe_unused]] ssize_t written = write(file, line.data(), line.size());  // else it is one that is not named
  close(file);
}
}  // namespace
