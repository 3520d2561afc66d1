//! The command `yestrwyn`.

#![forbid(unsafe_code)]

use std::env;
use std::process::ExitCode;

fn main() -> ExitCode {
    ExitCode::from(yestrwyn_desk::run(env::args_os().skip(1)).number())
}
