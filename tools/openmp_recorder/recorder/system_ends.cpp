// Ends of the process that call none of this library's functions: the child of a fork ends so, without a notice.
#include <stdlib.h>
#include <sys/syscall.h>
#include <unistd.h>

#include "life.hpp"
#include "systems.hpp"

ENTRY void _exit(int status) {
  note_usage_at_exit();
  for (;;) syscall(SYS_exit_group, status);
}

ENTRY void _Exit(int status) { _exit(status); }
