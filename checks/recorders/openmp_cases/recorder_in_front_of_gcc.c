// The same by gcc's code: its calls reach LLVM's runtime, which calls the recorder.
// compiler: gcc
// preload: recorder
// env: SPANPROF_WHOLE=1
// in out.locks: "kind": "omp_lock", "times": 8, "inside_ns"
// in out.locks: "kind": "critical", "times": 8, "inside_ns"
// in out.regions: ^1,0,\d+,\d+,4,4,8,
#include "recorder_in_front.c"
