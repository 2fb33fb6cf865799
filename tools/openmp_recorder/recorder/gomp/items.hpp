// What a task or a wait depends on, as gcc's code lists it.
#pragma once
#include <omp-tools.h>

#include <vector>

// First the number of items, and of those that write; or 0, and then the numbers of items, of those that write, of
// those that exclude each other, and of those that read; further ones are depend objects.
// The list is the program's and may be gone once its call returns: read it before. It allocates.
std::vector<ompt_dependence_t> items_of(void **depend);
