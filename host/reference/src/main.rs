//! The console on standard input and output (docs/CONSOLE.md).

use std::io;
use std::process::ExitCode;

fn main() -> ExitCode {
    match reference::console::run(&mut io::stdin().lock(), &mut io::stdout().lock()) {
        Ok(()) => ExitCode::SUCCESS,
        Err(_) => ExitCode::FAILURE,
    }
}
