//! The program `lurdempos`.

use std::process::ExitCode;

#[global_allocator]
static MEMORY: tool::Careful = tool::Careful;

fn main() -> ExitCode {
    tool::main()
}
