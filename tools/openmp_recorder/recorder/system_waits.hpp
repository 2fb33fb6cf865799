// Calls of the system that may sleep: of one that took 50 us or longer a sample is written, with the calls that led
// to it.
#pragma once

constexpr long long least_wait = 50000;  // nanoseconds

// Before the call of the system, while the thread still holds the mutex.
void leave_for_wait(const void *lock);  // a mutex that a wait for a condition gives back meanwhile
