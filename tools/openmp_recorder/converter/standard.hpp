// Headers of the standard library that the Makefile compiles once for all files; each file includes what it uses.
#pragma once
#include <algorithm>
#include <cstring>
#include <deque>
#include <fstream>
#include <map>
#include <memory>
#include <set>
#include <string>
#include <unordered_map>
#include <utility>
#include <vector>
