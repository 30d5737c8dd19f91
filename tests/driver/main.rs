//! Binds the oracle to the differential run.

mod binding;

use std::process::ExitCode;

fn main() -> ExitCode {
    driver::main(&binding::ORACLE)
}
