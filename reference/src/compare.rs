//! Comparing outputs record by record: with another program, or with a fault.

use std::fmt;
use std::io::{self, Write};
use std::path::Path;
use std::process::{Command, Stdio};
use std::thread;

use crate::fault::{Fault, FAULTS};
use crate::generate::{List, Script};
use crate::player::Player;
use crate::script::{array, read_record, record, target, Next, Record, HOME};

/// The lines that one step of a script prints, and what was played.
struct Step {
    played: Next,
    lines: Vec<u8>,
}

/// Plays a script and keeps the lines of each step.
fn steps(script: &[u8], fault: Fault) -> Vec<Step> {
    let mut input = script;
    let mut player = Player::new(fault);
    let mut steps = Vec::new();
    loop {
        let played = read_record(&mut input).expect("reading from memory");
        let mut lines = Vec::new();
        player.step(&played, &mut lines);
        let last = !matches!(played, Next::Record(_));
        steps.push(Step { played, lines });
        if last {
            return steps;
        }
    }
}

/// The lines that a whole script prints.
pub fn printed(script: &[u8], fault: Fault) -> Vec<u8> {
    steps(script, fault).into_iter().flat_map(|step| step.lines).collect()
}

/// Where the other's lines first differ.
pub struct Difference {
    /// The record's number in its script, from 0.
    pub record: usize,
    /// Calls of the script up to it.
    pub calls: usize,
    /// What was played last, the differing record at the end.
    pub history: Vec<String>,
    pub expected: String,
    pub found: String,
}

impl fmt::Display for Difference {
    fn fmt(&self, f: &mut fmt::Formatter) -> fmt::Result {
        writeln!(
            f,
            "difference at record {} (call {}); records up to it:",
            self.record, self.calls
        )?;
        for line in &self.history {
            writeln!(f, "  {line}")?;
        }
        writeln!(f, "reference: {}", self.expected)?;
        write!(f, "other:     {}", self.found)
    }
}

/// How many records before a difference are shown.
const HISTORY: usize = 12;

/// Compares the steps' lines with what another program printed.
fn first_difference(steps: &[Step], other: &[u8]) -> Option<Difference> {
    let mut rest = other;
    for (number, step) in steps.iter().enumerate() {
        match rest.strip_prefix(&step.lines[..]) {
            Some(after) => rest = after,
            None => return Some(difference(steps, number, &step.lines, rest)),
        }
    }
    (!rest.is_empty()).then(|| difference(steps, steps.len() - 1, b"", rest))
}

fn difference(steps: &[Step], number: usize, expected: &[u8], found: &[u8]) -> Difference {
    let mut expected_lines = expected.split_inclusive(|byte| *byte == b'\n');
    let mut found_lines = found.split_inclusive(|byte| *byte == b'\n');
    let (mut wanted, mut got) = (expected_lines.next(), found_lines.next());
    while wanted.is_some() && wanted == got {
        (wanted, got) = (expected_lines.next(), found_lines.next());
    }
    let shown = &steps[(number + 1).saturating_sub(HISTORY)..=number];
    let is_call = |step: &&Step| matches!(&step.played, Next::Record(record) if record.is_call());
    Difference {
        record: number,
        calls: steps[..=number].iter().filter(is_call).count(),
        history: shown.iter().map(describe).collect(),
        expected: text(wanted),
        found: text(got),
    }
}

fn text(line: Option<&[u8]>) -> String {
    match line {
        Some(bytes) => bytes.trim_ascii_end().escape_ascii().to_string(),
        None => "no line".to_string(),
    }
}

fn describe(step: &Step) -> String {
    let first = text(step.lines.split(|byte| *byte == b'\n').next());
    let arrow = if step.lines.is_empty() { "" } else { "  =>  " };
    match &step.played {
        Next::Record(record) => format!("{}{arrow}{first}", describe_record(record)),
        other => format!("{other:?}{arrow}{first}"),
    }
}

/// A record in words.
pub fn describe_record(record: &Record) -> String {
    let [b0, b1, b2, b3, b4] = record.b;
    let Record { a, clock, store, reply, .. } = record;
    let payload: String = record.payload.iter().map(|byte| format!("{byte:02X}")).collect();
    match record.kind {
        record::MESSAGE => format!(
            "MESSAGE own {b0}/{b1} from {b2}/{b3} id {a} clock {clock} store {store} reply {reply} {payload}"
        ),
        record::TIMER => format!("TIMER kind {b4} clock {clock} store {store} reply {reply}"),
        record::DONE => format!("DONE store {store}"),
        record::DUMP => "DUMP".to_string(),
        record::FRESH if b4 & HOME != 0 => format!("FRESH {b0:02X} home"),
        record::FRESH => format!("FRESH {b0:02X}"),
        record::SNAP => format!("SNAP {}", store_name(b4)),
        record::CMP => format!("CMP {}", store_name(b4)),
        record::POKE => format!("POKE field {b4} index {b0} value {a}"),
        record::WRITE => match b4 {
            target::PLAN => format!("WRITE plan {b0} from item {a} {payload}"),
            target::OTHER_HALF => format!("WRITE other half {b0} from item {a} {payload}"),
            target::OLD => format!("WRITE old store from byte {a} {payload}"),
            _ => format!("WRITE from word {a} {payload}"),
        },
        record::MOVE => format!("MOVE old {a} store {store}"),
        kind => format!("type {kind}"),
    }
}

fn store_name(of: u8) -> &'static str {
    match of {
        array::OLD => "old store",
        _ => "store",
    }
}

/// Runs a program with a script on its standard input; gives what it prints.
pub fn run_program(program: &Path, script: Vec<u8>) -> io::Result<Vec<u8>> {
    let mut command = Command::new(program);
    let spawned = command.stdin(Stdio::piped()).stdout(Stdio::piped()).spawn();
    let mut child = spawned.map_err(|error| named(program, error))?;
    let mut stdin = child.stdin.take().expect("a piped input");
    // A program that stops early closes the pipe; its output tells why.
    let writer = thread::spawn(move || drop(stdin.write_all(&script)));
    let output = child.wait_with_output()?;
    let _ = writer.join();
    match output.status.code() {
        Some(_) => Ok(output.stdout),
        None => Err(named(program, output.status)),
    }
}

/// An error that names the program.
pub fn named(program: &Path, what: impl fmt::Display) -> io::Error {
    io::Error::other(format!("{}: {what}", program.display()))
}

/// What a comparison with a program came to.
pub enum Verdict {
    Agree { lines: usize },
    Differ { number: usize, script: Script, difference: Difference },
}

/// Plays a list on the reference and through a program.
pub fn compare(list: List, program: &Path, fault: Fault) -> io::Result<Verdict> {
    let mut lines = 0;
    for (number, script) in list.scripts().enumerate() {
        let bytes = script.bytes();
        let steps = steps(&bytes, fault);
        let printed = run_program(program, bytes)?;
        if let Some(difference) = first_difference(&steps, &printed) {
            return Ok(Verdict::Differ { number, script, difference });
        }
        lines += printed.iter().filter(|byte| **byte == b'\n').count();
    }
    Ok(Verdict::Agree { lines })
}

/// For every fault of such lists, the number of calls after which the list shows it.
pub fn find_faults(list: List) -> Vec<(&'static str, Option<usize>)> {
    let faults: Vec<_> = FAULTS.iter().filter(|planted| planted.home == list.home).collect();
    let mut found: Vec<Option<usize>> = vec![None; faults.len()];
    let mut calls_before = 0;
    for script in list.scripts() {
        if found.iter().all(Option::is_some) {
            break;
        }
        let bytes = script.bytes();
        let good = steps(&bytes, Fault::None);
        for (planted, found) in faults.iter().zip(&mut found) {
            if found.is_none() {
                let difference = first_difference(&good, &printed(&bytes, planted.fault));
                *found = difference.map(|difference| calls_before + difference.calls);
            }
        }
        calls_before += script.calls();
    }
    faults.iter().map(|planted| planted.name).zip(found).collect()
}

#[cfg(test)]
mod tests {
    use super::*;

    #[test]
    fn every_fault_is_found() {
        for list in [List::plain(1, 20_000), List::home(1, 20_000)] {
            for (name, calls) in find_faults(list) {
                assert!(calls.is_some(), "{name}");
            }
        }
    }

    #[test]
    fn lists_show_no_free_words() {
        for list in (0..10).flat_map(|seed| [List::plain(seed, 4000), List::home(seed, 4000)]) {
            for script in list.scripts() {
                let bytes = script.bytes();
                let good = steps(&bytes, Fault::None);
                let difference = first_difference(&good, &printed(&bytes, Fault::FreeWords));
                assert!(difference.is_none(), "{list:?}: {}", difference.unwrap());
            }
        }
    }

    #[test]
    fn a_difference_names_its_record() {
        let mut script = Vec::new();
        Record::of(record::DONE).write(&mut script);
        Record::of(record::DUMP).write(&mut script);
        let good = steps(&script, Fault::None);
        let mut printed: Vec<u8> = good.iter().flat_map(|step| step.lines.clone()).collect();
        assert!(first_difference(&good, &printed).is_none());
        printed.extend(b"more\n");
        let more = first_difference(&good, &printed).unwrap();
        assert_eq!((more.expected.as_str(), more.found.as_str()), ("no line", "more"));
        let cut = first_difference(&good, b"d 14 stuck\nD 0\n").unwrap();
        assert_eq!((cut.record, cut.calls), (1, 1));
        assert_eq!((cut.expected.as_str(), cut.found.as_str()), ("k 0 0 0 0 0", "no line"));
    }
}
