//! Stories: text, and steps that are calls of the service. A step stands
//! between a `>` and the end of its line.

use std::str::{FromStr, SplitWhitespace};

use crate::layout::{address, Address, Item, Message};
use crate::limits::*;
use crate::script::{record, Record};

/// The drone's own numbers, and the component of each tablet.
pub const DRONE: Address = address(1, 1);
pub const TABLET: u8 = 190;

/// What begins a step.
const MARK: char = '>';

/// The commands of circles in a fence.
const CIRCLES: [u16; 2] = [5003, 5004];

/// Bit patterns: a circle's 200 metres, and 10 metres above the start.
const RADIUS: u32 = 0x4348_0000;
const HEIGHT: u32 = 0x4120_0000;

/// Decimals of degrees in x and y.
pub const DECIMALS: usize = 7;

#[derive(Debug, PartialEq, Eq)]
pub enum Part {
    Text(String),
    Step(Step),
}

#[derive(Clone, Debug, PartialEq, Eq)]
pub enum Step {
    /// A tablet's message.
    Message {
        clock: u32,
        system: u8,
        message: Message,
    },
    Timer {
        clock: u32,
        kind: u8,
    },
    Done,
}

impl Step {
    /// The call's record, with a whole store and reply buffer lent.
    pub fn record(&self) -> Record {
        let (store, reply) = (STORE_WORDS as u32, REPLY_BYTES as u32);
        match self {
            Step::Message { clock, system, message } => Record {
                kind: record::MESSAGE,
                b: [DRONE.system, DRONE.component, *system, TABLET, 0],
                a: message.id(),
                clock: *clock,
                store,
                reply,
                payload: message.write().full().to_vec(),
            },
            Step::Timer { clock, kind } => Record {
                b: [0, 0, 0, 0, *kind],
                clock: *clock,
                store,
                reply,
                ..Record::of(record::TIMER)
            },
            Step::Done => Record { store, ..Record::of(record::DONE) },
        }
    }
}

/// The kinds' names, by number.
pub const KIND_NAMES: [&str; KINDS] = ["flight", "fence", "rally"];

/// Reads a story; an error names its line.
pub fn read(text: &str) -> Result<Vec<Part>, String> {
    let mut parts = Vec::new();
    for (number, line) in (1..).zip(text.split_inclusive('\n')) {
        let Some((before, step)) = line.split_once(MARK) else {
            parts.push(Part::Text(line.to_string()));
            continue;
        };
        parts.push(Part::Text(before.to_string()));
        let step = read_step(step).map_err(|error| format!("line {number}: {error}"))?;
        parts.push(Part::Step(step));
    }
    Ok(parts)
}

/// The call script of a story's steps, from a fresh start over zeros.
pub fn script(parts: &[Part]) -> Vec<u8> {
    let mut bytes = Vec::new();
    Record::of(record::FRESH).write(&mut bytes);
    for part in parts {
        if let Part::Step(step) = part {
            step.record().write(&mut bytes);
        }
    }
    Record::of(record::END).write(&mut bytes);
    bytes
}

fn read_step(text: &str) -> Result<Step, String> {
    let mut words = text.split_whitespace();
    let first = words.next().ok_or("a step without a word")?;
    let step = if first == "done" {
        Step::Done
    } else {
        let clock = number("clock reading", first)?;
        match words.next() {
            Some("timer") => Step::Timer { clock, kind: kind(&mut words)? },
            Some(name) => message(clock, name, &mut words)?,
            None => return Err("a clock reading alone".to_string()),
        }
    };
    match words.next() {
        None => Ok(step),
        Some(word) => Err(format!("{word}: nothing more is asked for")),
    }
}

fn message(clock: u32, name: &str, words: &mut SplitWhitespace) -> Result<Step, String> {
    let system = next("system", words)?;
    let to = DRONE;
    let message = match name {
        "count" => {
            Message::Count { kind: kind(words)?, count: next("count", words)?, to, number: 0 }
        }
        "change" => change(words)?,
        "item" => Message::ItemInt(item(words)?),
        "list" => Message::RequestList { to, kind: kind(words)? },
        "request" => Message::RequestInt { kind: kind(words)?, seq: next("number", words)?, to },
        "clear" => Message::ClearAll { to, kind: kind(words)? },
        "choose" => Message::SetCurrent { seq: next("number", words)?, to },
        _ => return Err(format!("{name}: no such step")),
    };
    Ok(Step::Message { clock, system, message })
}

/// The announcement that items of a plan change, from one to another.
fn change(words: &mut SplitWhitespace) -> Result<Message, String> {
    let kind = kind(words)?;
    let (start, end) = (next("number", words)?, next("number", words)?);
    Ok(Message::WritePartialList { start, end, to: DRONE, kind })
}

/// An item 10 metres above the start, or a circle of 200 metres.
fn item(words: &mut SplitWhitespace) -> Result<Item, String> {
    let (kind, seq) = (kind(words)?, next("number", words)?);
    let command = next("command", words)?;
    let (x, y) = (degrees(words)?, degrees(words)?);
    let flight = usize::from(kind) == FLIGHT;
    let circle = CIRCLES.contains(&command);
    Ok(Item {
        params: [if circle { RADIUS } else { 0 }, 0, 0, 0],
        x,
        y,
        z: if flight { HEIGHT } else { 0 },
        seq,
        command,
        to: DRONE,
        frame: if flight { 6 } else { 0 },
        current: 0,
        autocontinue: 1,
        kind,
    })
}

fn number<T: FromStr>(what: &str, word: &str) -> Result<T, String> {
    word.parse().map_err(|_| format!("{word}: not a {what}"))
}

fn next<T: FromStr>(what: &str, words: &mut SplitWhitespace) -> Result<T, String> {
    number(what, words.next().ok_or(format!("a {what} is missing"))?)
}

fn kind(words: &mut SplitWhitespace) -> Result<u8, String> {
    let word = words.next().ok_or("a kind is missing")?;
    let found = KIND_NAMES.iter().position(|name| *name == word);
    found.map(|kind| kind as u8).ok_or(format!("{word}: not a kind"))
}

/// Degrees with at most seven decimals, in units of the seventh.
fn degrees(words: &mut SplitWhitespace) -> Result<i32, String> {
    let word = words.next().ok_or("degrees are missing")?;
    let fault = || format!("{word}: not degrees with at most {DECIMALS} decimals");
    let (whole, decimals) = word.split_once('.').unwrap_or((word, ""));
    let digits = |text: &str| text.bytes().all(|digit| digit.is_ascii_digit());
    let ahead = whole.strip_prefix('-').unwrap_or(whole);
    if ahead.is_empty() || !digits(ahead) || decimals.len() > DECIMALS || !digits(decimals) {
        return Err(fault());
    }
    format!("{whole}{decimals:0<DECIMALS$}").parse().map_err(|_| fault())
}

#[cfg(test)]
mod tests {
    use super::*;

    fn step(text: &str) -> Step {
        read_step(text).unwrap()
    }

    #[test]
    fn text_and_steps() {
        let parts = read("One.\nIt flies:>done\n>5 timer rally").unwrap();
        let text = |text: &str| Part::Text(text.to_string());
        assert_eq!(
            parts,
            [
                text("One.\n"),
                text("It flies:"),
                Part::Step(Step::Done),
                text(""),
                Part::Step(Step::Timer { clock: 5, kind: 2 }),
            ]
        );
    }

    #[test]
    fn messages() {
        let (to, number) = (DRONE, 0);
        let message = |message| Step::Message { clock: 7, system: 255, message };
        assert_eq!(
            step("7 count 255 fence 3"),
            message(Message::Count { count: 3, to, kind: 1, number })
        );
        assert_eq!(
            step("7 change 255 flight 1 2"),
            message(Message::WritePartialList { start: 1, end: 2, to, kind: 0 })
        );
        assert_eq!(step("7 list 255 rally"), message(Message::RequestList { to, kind: 2 }));
        assert_eq!(
            step("7 request 255 flight 4"),
            message(Message::RequestInt { seq: 4, to, kind: 0 })
        );
        assert_eq!(step("7 clear 255 fence"), message(Message::ClearAll { to, kind: 1 }));
        assert_eq!(step("7 choose 255 9"), message(Message::SetCurrent { seq: 9, to }));
    }

    #[test]
    fn places() {
        let item = |text: &str| match step(text) {
            Step::Message { message: Message::ItemInt(item), .. } => item,
            other => panic!("{other:?}"),
        };
        let flight = item("7 item 255 flight 1 16 -47.62 9.3720001");
        assert_eq!((flight.x, flight.y, flight.z), (-476_200_000, 93_720_001, HEIGHT));
        let fence = item("7 item 255 fence 0 5003 1 2");
        assert_eq!((fence.params[0], fence.frame, fence.x), (RADIUS, 0, 10_000_000));
    }

    #[test]
    fn refused() {
        for (text, fault) in [
            ("x\n>", "line 2: a step without a word"),
            (">5", "line 1: a clock reading alone"),
            (">5 fly 255", "line 1: fly: no such step"),
            (">5 timer orchard", "line 1: orchard: not a kind"),
            (">5 count 256 flight 1", "line 1: 256: not a system"),
            (">5 change 255 flight 1", "line 1: a number is missing"),
            (">5 item 255 flight 0 16 1", "line 1: degrees are missing"),
            (
                ">5 item 255 flight 0 16 1.23456789 0",
                "line 1: 1.23456789: not degrees with at most 7 decimals",
            ),
            (">5 item 255 flight 0 16 -.5 0", "line 1: -.5: not degrees with at most 7 decimals"),
            (">done 5", "line 1: 5: nothing more is asked for"),
        ] {
            assert_eq!(read(text).unwrap_err(), fault);
        }
    }
}
