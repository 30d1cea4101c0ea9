//! A long script of message and timer records, and how long programs take.

use std::fs::{self, File};
use std::io;
use std::path::{Path, PathBuf};
use std::process::Command;
use std::time::{Duration, Instant};

use crate::compare::named;
use crate::layout::{address, Address, Item, Message};
use crate::limits::*;
use crate::script::{record, Record};

const OWN: Address = address(1, 1);
const STATION: Address = address(255, 190);
/// Each program is run as often; its fastest run counts.
const RUNS: usize = 3;

/// Writes records until it has as many as wanted.
struct Writer {
    bytes: Vec<u8>,
    left: usize,
    clock: u32,
}

impl Writer {
    fn record(&mut self, record: Record) {
        if self.left > 0 {
            record.write(&mut self.bytes);
            self.left -= 1;
        }
    }

    fn send(&mut self, message: Message) {
        self.clock = self.clock.wrapping_add(5);
        self.record(Record {
            kind: record::MESSAGE,
            b: [OWN.system, OWN.component, STATION.system, STATION.component, 0],
            a: message.id(),
            clock: self.clock,
            store: STORE_WORDS as u32,
            reply: REPLY_BYTES as u32,
            payload: message.write().trimmed().to_vec(),
        });
    }

    fn timer(&mut self, kind: u8) {
        self.record(Record {
            kind: record::TIMER,
            b: [0, 0, 0, 0, kind],
            clock: self.clock,
            store: STORE_WORDS as u32,
            reply: REPLY_BYTES as u32,
            ..Record::default()
        });
    }

    /// A full-size upload with an expiry and an ACK on the way, then a list
    /// request, requests for items and, for flight, a new current item.
    fn round(&mut self, kind: u8) {
        let size = PLAN_SIZE[usize::from(kind)];
        self.send(Message::Count { count: size, to: OWN, kind, number: 0 });
        for seq in 0..size {
            if seq == size / 2 {
                self.clock = self.clock.wrapping_add(EXPIRY_MS);
                self.timer(kind);
                self.send(Message::Ack { to: OWN, result: 0, kind, number: 0 });
            }
            self.send(Message::ItemInt(item(kind, seq)));
            self.timer(kind);
        }
        self.send(Message::RequestList { to: OWN, kind });
        for seq in 0..size {
            self.send(Message::RequestInt { seq, to: OWN, kind });
        }
        self.send(Message::SetCurrent { seq: size / 2, to: OWN });
    }
}

/// Item `seq` of a full-size plan: waypoints and some jumps, triangles and a
/// circle, rally points.
fn item(kind: u8, seq: u16) -> Item {
    let (command, first, second): (u16, f32, f32) = match usize::from(kind) {
        FLIGHT if seq % 20 == 19 => (177, f32::from(seq - 3), 2.0),
        FLIGHT => (16, 5.0, 0.0),
        FENCE if seq == 63 => (5003, 40.0, 0.0),
        FENCE => (5001, 3.0, 0.0),
        _ => (5100, 0.0, 0.0),
    };
    Item {
        params: [first.to_bits(), second.to_bits(), 0, 0],
        x: 450_000_000 + i32::from(seq),
        y: -700_000_000,
        z: 50.0f32.to_bits(),
        seq,
        command,
        to: OWN,
        frame: 3,
        current: 0,
        autocontinue: 1,
        kind,
    }
}

/// A script of `calls` message and timer records.
pub fn script(calls: usize) -> Vec<u8> {
    let mut bytes = Vec::new();
    Record::of(record::FRESH).write(&mut bytes);
    let mut writer = Writer { bytes, left: calls, clock: u32::MAX - 60_000 };
    while writer.left > 0 {
        for kind in [0, 1, 2] {
            writer.round(kind);
        }
        writer.send(Message::ClearAll { to: OWN, kind: ALL_KINDS });
    }
    let mut bytes = writer.bytes;
    Record::of(record::END).write(&mut bytes);
    bytes
}

/// A file that is removed when it is no longer used.
struct Scratch(PathBuf);

impl Scratch {
    fn new(name: &str) -> Scratch {
        let file = format!("reference-speed-{}-{name}", std::process::id());
        Scratch(std::env::temp_dir().join(file))
    }
}

impl Drop for Scratch {
    fn drop(&mut self) {
        let _ = fs::remove_file(&self.0);
    }
}

/// Runs a program from a script file into an output file.
fn timed(program: &Path, arguments: &[&str], script: &Path, output: &Path) -> io::Result<Duration> {
    let (input, output) = (File::open(script)?, File::create(output)?);
    let started = Instant::now();
    let run = Command::new(program).args(arguments).stdin(input).stdout(output).status();
    let taken = started.elapsed();
    match run {
        Ok(status) if status.code().is_some() => Ok(taken),
        Ok(status) => Err(named(program, status)),
        Err(error) => Err(named(program, error)),
    }
}

/// The least times of the two programs, and whether their lines are the same.
pub struct Speed {
    pub own: Duration,
    pub console: Option<(Duration, bool)>,
}

/// Times this program's own `play`, and the console if one is given, by turns.
pub fn measure(calls: usize, console: Option<&Path>) -> io::Result<Speed> {
    let scratch = ["script", "own", "console"].map(Scratch::new);
    let [script_file, own_lines, console_lines] = scratch.each_ref().map(|file| &*file.0);
    fs::write(script_file, script(calls))?;
    let own_program = std::env::current_exe()?;
    let mut own = Duration::MAX;
    let mut other = Duration::MAX;
    for _ in 0..RUNS {
        own = own.min(timed(&own_program, &["play"], script_file, own_lines)?);
        if let Some(program) = console {
            other = other.min(timed(program, &[], script_file, console_lines)?);
        }
    }
    if console.is_none() {
        return Ok(Speed { own, console: None });
    }
    let same = fs::read(own_lines)? == fs::read(console_lines)?;
    Ok(Speed { own, console: Some((other, same)) })
}

#[cfg(test)]
mod tests {
    use super::*;
    use crate::fault::Fault;
    use crate::player::play;

    #[test]
    fn uploads_of_each_kind_complete() {
        let mut lines = Vec::new();
        play(&mut &script(5000)[..], &mut lines, Fault::None).unwrap();
        let lines = String::from_utf8(lines).unwrap();
        assert_eq!(lines.lines().count(), 5000);
        for accepted in ["FFBE000001", "FFBE000101", "FFBE000201", "FFBE000002"] {
            assert!(lines.contains(&format!("m 0 47 5 {accepted}\n")), "{accepted}");
        }
        assert!(!lines.contains("m 1 0 0 -\nm 1 0 0 -"));
    }
}
