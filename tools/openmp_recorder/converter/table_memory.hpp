// Memory for the tables of a run, of which there may be more than a process is to hold. Where too much is resident,
// what was made first goes into a file without a name next to the texts, and is mapped from there: its pages come back
// as they are read or written, and leave again.
#pragma once
#include <cstddef>
#include <string>

namespace table_memory {
struct Most {  // bytes
  std::size_t tables = 128 << 20;  // with fewer nothing goes into the file
  std::size_t resident = 248 << 20;  // of the whole process
};
void stand_beside(const std::string &first_name, const Most &most = {});  // of the file; until then all stays in memory
void *get(std::size_t bytes);
void give_back(void *memory, std::size_t bytes);
// The same with more room, elsewhere, of which so many bytes are used.
void *get_more(void *memory, std::size_t room, std::size_t used, std::size_t more);
// Lets pages go where too many are there. To be called between some hundreds of tasks, whatever is done with them.
void stay_within();
}  // namespace table_memory
