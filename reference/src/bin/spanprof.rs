//! `spanprof [COMMAND] < TEXT`: the ten commands.

#[global_allocator]
static ALLOCATOR: reference::memory::OrEnds = reference::memory::OrEnds;

fn main() -> std::process::ExitCode {
    reference::run(reference::commands::spanprof)
}
