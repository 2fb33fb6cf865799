// The signal of the samples' timers: one that nobody uses. A program that takes it later gets it, and there are no
// samples from then on. Sets that are to have all signals have all but this one, as they leave out the system's own.
#pragma once
#include <signal.h>

#include <cstdint>

using OnSignal = void (*)(int, siginfo_t *, void *);

bool take_sample_signal(OnSignal handler);  // once, before other threads begin; false where there is none to take
// Any thread and any handler may call it.
int sample_signal();  // 0 where none is taken
// It takes a lock, so no handler of the recorder calls it; signals that were sent before may still arrive.
void stop_sampling();  // ends all timers; of samples.cpp
