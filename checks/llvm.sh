# shellcheck shell=bash
# Sourced by the scripts that compile for LLVM's runtime.

# find_llvm: sets `llvm` to the version in LLVM, or to the newest that has its compiler and its runtime here
# (checks/llvm/versions.py), `library` to the folder of its runtime, and the array `llvm_flags` to what its compiler
# needs to find that. Where there is none it answers 1, and `no_llvm` says so.
find_llvm() {
    local found headers
    # shellcheck disable=SC2034
    no_llvm="LLVM's compiler or OpenMP runtime is missing (packages clang-${LLVM:-19}, libomp-${LLVM:-19}-dev)"
    found=$(python3 -B "$(dirname "${BASH_SOURCE[0]}")/llvm/versions.py" ${LLVM:+"$LLVM"}) || return 1
    # shellcheck disable=SC2034
    read -r llvm library headers <<< "${found%%$'\n'*}"
    llvm_flags=("-L$library" "-Wl,-rpath,$library")
    [ -z "$headers" ] || llvm_flags+=("-isystem$headers")
}
