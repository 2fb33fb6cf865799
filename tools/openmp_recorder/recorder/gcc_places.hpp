// What gcc's own runtime, which lies unused beside LLVM's under gcc's code, does to the program all the same.
#pragma once

// By OMP_PROC_BIND it binds the first thread to a place when it is loaded. LLVM's runtime takes the thread's processors
// for all that there are, so they are given back before it looks.
void give_processors_back();
