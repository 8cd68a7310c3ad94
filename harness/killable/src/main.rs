//! The tool as a test build. At the n-th step that changes a file or a folder, or in the middle of a write,
//! LURDEMPOS_KILL_AT=n ends the process, LURDEMPOS_FAIL_AT=n lets the step fail, and LURDEMPOS_RUN_AT=n has the shell
//! run LURDEMPOS_RUN first. The tool itself knows none of these.

use std::io;
use std::process::{Command, ExitCode};

#[global_allocator]
static MEMORY: tool::Careful = tool::Careful;

struct Disturber;

impl tool::Watch for Disturber {
    fn step(&self, number: u32) -> io::Result<()> {
        if asked_for("LURDEMPOS_RUN_AT", number) {
            let command = std::env::var("LURDEMPOS_RUN").unwrap_or_default();
            Command::new("sh").args(["-c", &command]).status()?;
        }
        if asked_for("LURDEMPOS_KILL_AT", number) {
            // Ends the process at once: no destructor runs and no buffer is flushed.
            std::process::abort();
        }
        if asked_for("LURDEMPOS_FAIL_AT", number) {
            return Err(io::Error::other("failed because LURDEMPOS_FAIL_AT asks for it"));
        }
        Ok(())
    }
}

fn asked_for(variable: &str, number: u32) -> bool {
    std::env::var(variable).is_ok_and(|value| value == number.to_string())
}

fn main() -> ExitCode {
    tool::watch(&Disturber);
    tool::main()
}
