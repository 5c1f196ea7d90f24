//! The program `janorembe`.
#![forbid(unsafe_code)]

use std::process::ExitCode;

fn main() -> ExitCode {
    ExitCode::from(janorembe_cli::run(std::env::args_os().skip(1).collect()) as u8)
}
