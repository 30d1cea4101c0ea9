//! The proved library and programs beside plain Rust: whether both give the same, and ratios of their times.

mod agree;
mod lists;
mod measure;
mod mixed;
mod plain;
mod plans;
mod programs;
mod random;
mod replay;
mod trim;

use std::process::ExitCode;

/// A thing that can be measured: its name, and what measures it, in brief or not.
type Measurement = (&'static str, fn(bool) -> Result<(), String>);

const MEASUREMENTS: [Measurement; 2] = [("trim", trim::run), ("replay", replay::run)];

fn measure(name: &str, brief: bool) -> Option<Result<(), String>> {
    let (_, measured) = MEASUREMENTS.iter().find(|(known, _)| *known == name)?;
    Some(measured(brief))
}

fn main() -> ExitCode {
    let words: Vec<String> = std::env::args().skip(1).collect();
    let words: Vec<&str> = words.iter().map(String::as_str).collect();
    let measured = match words[..] {
        ["replay-once", whose, list] => Some(replay::once(whose, list)),
        [name] => measure(name, false),
        [name, "--brief"] => measure(name, true),
        _ => None,
    };
    match measured {
        Some(Ok(())) => ExitCode::SUCCESS,
        Some(Err(error)) => {
            eprintln!("bench: {error}");
            ExitCode::FAILURE
        }
        None => {
            let names: Vec<&str> = MEASUREMENTS.iter().map(|(known, _)| *known).collect();
            eprintln!("bench: NAME [--brief], where NAME is one of: {}", names.join(", "));
            eprintln!("bench: replay-once ours|plain LIST");
            ExitCode::from(2)
        }
    }
}
