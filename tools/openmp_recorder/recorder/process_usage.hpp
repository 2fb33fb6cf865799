// What the system counted of this process, all its threads so far.
#pragma once
#include "log_form.hpp"

log_form::Usage process_usage();  // in a handler too
