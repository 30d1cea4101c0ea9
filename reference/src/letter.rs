//! A story told: its text as it stands, and each step with what the drone
//! answers, read from the lines that a program prints for the step.

use std::io;
use std::path::Path;

use crate::compare::{describe_record, printed, run_program};
use crate::fault::Fault;
use crate::layout::{Address, Item, Message};
use crate::story::{script, Part, Step, DECIMALS, KIND_NAMES, TABLET};

/// The outcomes of a message or timer call with a reply, and without one.
const REPLIED: u8 = 0;
const QUIET: u8 = 1;

/// What the results of an ACK say, by number.
const RESULTS: [&str; 16] = [
    "accepted",
    "error",
    "unsupported frame",
    "unsupported",
    "no space",
    "invalid",
    "invalid param 1",
    "invalid param 2",
    "invalid param 3",
    "invalid param 4",
    "invalid x",
    "invalid y",
    "invalid z",
    "invalid sequence",
    "denied",
    "cancelled",
];

/// Plays a story on the reference and through a program, whose lines are told;
/// says where the lines of the two differ.
pub fn tell(parts: &[Part], console: &Path) -> io::Result<Result<String, String>> {
    let script = script(parts);
    let own = printed(&script, Fault::None);
    let lines = run_program(console, script)?;
    Ok(told(parts, &String::from_utf8_lossy(&lines), &String::from_utf8_lossy(&own)))
}

/// The story with the lines of its steps, which must be the wanted ones.
fn told(parts: &[Part], lines: &str, wanted: &str) -> Result<String, String> {
    let mut text = String::new();
    let (mut lines, mut wanted) = (lines.lines(), wanted.lines());
    for part in parts {
        match part {
            Part::Text(words) => text += words,
            Part::Step(step) => {
                let (line, wanted) = (lines.next().unwrap_or(""), wanted.next().unwrap_or(""));
                let record = || describe_record(&step.record());
                if line != wanted {
                    return Err(format!("{}\n  printed {line}\n  wanted  {wanted}", record()));
                }
                text += &said(step);
                text += &answered(line).ok_or_else(|| format!("{}\n  printed {line}", record()))?;
            }
        }
    }
    match lines.next() {
        None => Ok(text),
        Some(line) => Err(format!("after the last step\n  printed {line}")),
    }
}

/// What a tablet says, up to the drone's answer.
fn said(step: &Step) -> String {
    let Step::Message { system, message, .. } = step else {
        return String::new();
    };
    let words = match message {
        Message::Count { count, kind, .. } => format!("COUNT, {count} {} items", kind_name(*kind)),
        Message::WritePartialList { start, end, kind, .. } => {
            format!("WRITE_PARTIAL_LIST, {} items {start} to {end} change", kind_name(*kind))
        }
        Message::ItemInt(item) => {
            format!("ITEM_INT, {} {}", kind_name(item.kind), item_words(item))
        }
        Message::RequestList { kind, .. } => {
            format!("REQUEST_LIST, which {} plan stands?", kind_name(*kind))
        }
        Message::RequestInt { seq, kind, .. } => {
            format!("REQUEST_INT, {} item {seq}", kind_name(*kind))
        }
        Message::ClearAll { kind, .. } => format!("CLEAR_ALL, {}", kind_name(*kind)),
        Message::SetCurrent { seq, .. } => format!("SET_CURRENT, item {seq}"),
        other => format!("{other:?}"),
    };
    format!("tablet {system}/{TABLET} says: {words}\n  drone answers ")
}

/// A line that a call has printed, in words.
fn answered(line: &str) -> Option<String> {
    let mut words = line.split(' ');
    let letter = words.next()?;
    let outcome = words.next()?.parse().ok()?;
    if letter == "d" {
        return Some(command_words(words.next()?, words.next()));
    }
    let (id, _, bytes) = (words.next()?.parse().ok()?, words.next()?, words.next()?);
    Some(match outcome {
        REPLIED => reply_words(&Message::read(id, &from_hex(bytes)?)?),
        QUIET => "nothing\n".to_string(),
        refusal => format!("nothing: the call is refused ({refusal})\n"),
    })
}

/// A command of the flight plan, with its item's number.
fn command_words(name: &str, item: Option<&str>) -> String {
    match (name, item) {
        ("fly", Some(n)) => format!(" item {n},"),
        (_, Some(n)) => format!(" {name} (item {n}),"),
        (_, None) => format!(" {name}.\n"),
    }
}

fn reply_words(message: &Message) -> String {
    let Address { system, component } = message.to();
    let words = match message {
        Message::Count { count, kind, number, .. } => {
            format!("{count} {} items, plan number {number}", kind_name(*kind))
        }
        Message::RequestInt { seq, kind, .. } => {
            format!("please send {} item {seq}", kind_name(*kind))
        }
        Message::Ack { result, kind, number, .. } => {
            let plan = match number {
                0 => String::new(),
                number => format!(", {} plan number {number}", kind_name(*kind)),
            };
            format!("{} (ACK {result}){plan}", result_name(*result))
        }
        Message::ItemInt(item) => item_words(item),
        Message::Current { seq, total, .. } => {
            return format!("everyone: item {seq} of {total} is the current one\n");
        }
        Message::StatusText { text, .. } => {
            let text = String::from_utf8_lossy(text);
            return format!("everyone: {}\n", text.trim_end_matches('\0'));
        }
        other => format!("{other:?}"),
    };
    format!("{system}/{component}: {words}\n")
}

/// An item's number, what it asks for, and where.
fn item_words(item: &Item) -> String {
    let Item { seq, command, x, y, .. } = item;
    format!("item {seq}, {} at {}, {}", command_name(*command), degrees(*x), degrees(*y))
}

fn degrees(units: i32) -> String {
    let one = 10_u32.pow(DECIMALS as u32);
    let (sign, units) = (if units < 0 { "-" } else { "" }, units.unsigned_abs());
    format!("{sign}{}.{:0DECIMALS$}", units / one, units % one)
}

fn kind_name(kind: u8) -> &'static str {
    KIND_NAMES.get(usize::from(kind)).unwrap_or(&"unknown")
}

fn result_name(result: u8) -> &'static str {
    RESULTS.get(usize::from(result)).unwrap_or(&"unknown")
}

fn command_name(command: u16) -> &'static str {
    match command {
        16 => "waypoint",
        17 => "loiter",
        18 => "loiter in turns",
        19 => "loiter for a time",
        20 => "return home",
        21 => "land",
        22 => "takeoff",
        31 => "loiter to a height",
        112 => "delay",
        114 => "wait for the distance",
        115 => "turn",
        177 => "jump",
        178 => "change speed",
        183 => "set servo",
        5000 => "return point",
        5001 => "corner to stay inside",
        5002 => "corner to stay outside",
        5003 => "circle to stay inside",
        5004 => "circle to stay outside",
        5100 => "rally point",
        _ => "command",
    }
}

/// Bytes from their digits; `-` is none.
pub fn from_hex(digits: &str) -> Option<Vec<u8>> {
    if digits == "-" {
        return Some(Vec::new());
    }
    let byte = |at| u8::from_str_radix(digits.get(at..at + 2)?, 16).ok();
    (0..digits.len()).step_by(2).map(byte).collect()
}

#[cfg(test)]
mod tests {
    use super::*;
    use crate::story;
    use std::fs;

    fn words(text: &str) -> String {
        let parts = story::read(text).unwrap();
        let own = String::from_utf8(printed(&script(&parts), Fault::None)).unwrap();
        told(&parts, &own, &own).unwrap()
    }

    #[test]
    fn an_upload() {
        let text = words(
            "A plan:\n>1 count 255 flight 1\n>2 item 255 flight 0 22 47.62 -9.3720001\nIt flies:>done\n>done\n>9 list 255 flight\n",
        );
        assert_eq!(
            text,
            "A plan:\n\
             tablet 255/190 says: COUNT, 1 flight items\n  drone answers 255/190: please send flight item 0\n\
             tablet 255/190 says: ITEM_INT, flight item 0, takeoff at 47.6200000, -9.3720001\n  \
             drone answers 255/190: accepted (ACK 0), flight plan number 1\n\
             It flies: item 0, finished.\n\
             tablet 255/190 says: REQUEST_LIST, which flight plan stands?\n  \
             drone answers 255/190: 1 flight items, plan number 1\n"
        );
    }

    #[test]
    fn a_change() {
        let plan = ">1 count 255 rally 1\n>2 item 255 rally 0 5100 47.62 9.372\n";
        let text = words(&format!("{plan}>3 change 255 rally 0 0\n>4 change 254 rally 0 0\n"));
        let change = "WRITE_PARTIAL_LIST, rally items 0 to 0 change\n  drone answers";
        let shown = format!(
            "tablet 255/190 says: {change} 255/190: please send rally item 0\n\
             tablet 254/190 says: {change} 254/190: denied (ACK 14)\n"
        );
        assert!(text.ends_with(&shown), "{text}");
    }

    #[test]
    fn the_letter_is_told_as_it_is_kept() {
        let folder = concat!(env!("CARGO_MANIFEST_DIR"), "/../letter");
        let text = |name: &str| fs::read_to_string(format!("{folder}/{name}")).unwrap();
        assert_eq!(words(&text("story.txt")), text("told.txt"));
    }

    #[test]
    fn other_answers() {
        assert!(words(">1 choose 255 0").ends_with("answers everyone: no such mission item\n"));
        assert!(words(">1 clear 254 rally").ends_with("answers 254/190: accepted (ACK 0)\n"));
        assert_eq!(words(">1 timer flight"), "nothing\n");
        assert_eq!(words("It flies:>done"), "It flies: finished.\n");
        assert_eq!(answered("m 12 0 0 -").unwrap(), "nothing: the call is refused (12)\n");
        assert_eq!(answered("d 1 wait 4 40A00000").unwrap(), " wait (item 4),");
    }

    #[test]
    fn lines_that_differ() {
        let parts = story::read(">1 timer flight").unwrap();
        assert!(told(&parts, "t 1 0 0 -\n", "t 1 0 0 -\n").is_ok());
        assert!(told(&parts, "t 0 0 0 -\n", "t 1 0 0 -\n").is_err());
        assert!(told(&parts, "", "t 1 0 0 -\n").is_err());
        assert!(told(&parts, "t 1 0 0 -\n? 9\n", "t 1 0 0 -\n").is_err());
    }
}
