// NAME.locks: where the program asked for locks, how often, how long it was inside, and how long it waited.
#pragma once
#include <map>
#include <string>
#include <utility>
#include <vector>

#include "records.hpp"
#include "source.hpp"

using LockSums = std::map<std::pair<std::string, std::string>, LockUse>;  // by place and kind
using LockRows = std::vector<std::pair<LockSums::key_type, LockUse>>;

void add(LockSums &sums, const LockUse &use, const Places &places);
LockRows most_first(const LockSums &sums, int64_t LockUse::*time);
std::vector<const void *> codes_of_locks(const std::vector<Records *> &threads);
std::string lock_table(const std::vector<Records *> &threads, const Places &places);  // the longest waited for first
