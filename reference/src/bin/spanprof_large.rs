//! `spanprof_large [COMMAND] < TEXT`: the same questions, and others, about texts of any size.

#[global_allocator]
static ALLOCATOR: reference::memory::OrEnds = reference::memory::OrEnds;

fn main() -> std::process::ExitCode {
    reference::run(reference::commands::spanprof_large)
}
