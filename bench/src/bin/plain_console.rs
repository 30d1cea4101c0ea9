//! Reads a call script from standard input, makes its message and timer calls over the service in plain Rust, and prints a line for each.

use std::io;
use std::process::ExitCode;

fn main() -> ExitCode {
    match bench::console::play(&mut io::stdin().lock(), &mut io::stdout().lock()) {
        Ok(()) => ExitCode::SUCCESS,
        Err(error) => {
            eprintln!("plain_console: {error}");
            ExitCode::FAILURE
        }
    }
}
