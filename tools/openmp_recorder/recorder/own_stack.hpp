// Where the calling thread's stack lies.
#pragma once
#include <unistd.h>

#include "frames.hpp"

// True too of a thread that forked, in the child, whatever stack it runs on.
inline bool is_first_thread() { return getpid() == gettid(); }

// That which the thread began with, from its lowest address on; nothing where that is not known.
// Not in a handler, since pthread_getattr_np allocates.
frames::Stack own_stack();
