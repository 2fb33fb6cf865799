// The modules of the process, as its log lists them: places in the program are told by them.
#pragma once
#include <string>

// Several threads may call both at once: lines are appended, and the same module may be listed twice. Not in a handler.
void write_modules(const std::string &folder);  // all that are loaded
void tell_new_modules(const std::string &folder);  // the same where others were loaded since
