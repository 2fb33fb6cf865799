// Names of functions as a reader takes them in.
#pragma once
#include <string>

std::string demangled(const std::string &symbol);  // as it stands, where it is no name of C++
std::string short_name(const std::string &function);  // with `<..>` for the arguments of templates
