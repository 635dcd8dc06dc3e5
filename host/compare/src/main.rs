//! Compares the console with the reference program on random scripts (README.md).

#![forbid(unsafe_code)]

mod asked;
mod calls;
mod campaign;
mod card;
mod clauses;
mod damage;
mod division;
mod entries;
mod frames;
mod image;
mod judge;
mod master;
mod masters;
mod minimise;
mod model;
mod options;
mod program;
mod receivers;
mod report;
mod rng;
mod rounds;
mod sections;
mod stillness;
mod streams;
mod tally;
mod text;
mod ways;
mod writer;

use std::process::ExitCode;

use options::{Options, USAGE};

/// The exit code for a command line or a program that cannot be used.
const UNUSABLE: u8 = 2;

/// Reads the command line and compares.
fn main() -> ExitCode {
    let options = match Options::read(std::env::args().skip(1)) {
        Ok(options) => options,
        Err(error) => {
            eprintln!("{error}\n{USAGE}");
            return ExitCode::from(UNUSABLE);
        }
    };
    match campaign::run(&options) {
        Ok(true) => ExitCode::SUCCESS,
        Ok(false) => ExitCode::FAILURE,
        Err(error) => {
            eprintln!("{error}");
            ExitCode::from(UNUSABLE)
        }
    }
}
