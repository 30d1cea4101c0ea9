//! Plans that the service over bytes wrote answer after the move as they did
//! before it (request M-106). Its call script is kept with the lines that it
//! printed. The script has one DUMP: the state and the items that this shows are
//! put into the old store and moved, and the calls behind it are made again.

use crate::layout::address;
use crate::letter::from_hex;
use crate::limits::*;
use crate::script::{field, read_if, record, script_bytes, target, Next, Record};
use crate::state::Upload;
use crate::store::Shelf;

/// What the stores are filled with before the items are put in.
const FILL: u8 = 0x5A;

/// The present script, and the lines that it must print.
pub struct Moved {
    records: Vec<Record>,
    wanted: Vec<String>,
}

impl Moved {
    /// Reads a script of the service over bytes, and the lines that it printed.
    pub fn read(script: &[u8], lines: &str) -> Result<Moved, String> {
        let records = all_records(script)?;
        let dump_at = records.iter().position(|record| record.kind == record::DUMP);
        let (before, after) = records.split_at(dump_at.ok_or("the script has no DUMP")?);
        let lines: Vec<&str> = lines.lines().skip(calls(before)).collect();
        let is_last = |line: &&str| line.starts_with("c ");
        let dump_end = lines.iter().position(is_last).ok_or("the lines have no DUMP")? + 1;
        let (dump, answers) = lines.split_at(dump_end);
        let asked = &after[1..];
        if calls(asked) != asked.len() || answers.len() != asked.len() {
            return Err("not one answer to each call behind the DUMP".to_string());
        }
        let mut records = vec![Record::fresh(FILL, false)];
        records.extend(as_shown(dump)?);
        records.push(Record::moving(OLD_STORE_BYTES as u32, STORE_WORDS as u32));
        records.push(Record::of(record::DUMP));
        records.extend(asked.iter().map(over_words));
        let mut wanted = vec!["v 1".to_string()];
        wanted.extend(without_uploads(dump));
        wanted.extend(answers.iter().map(|line| line.to_string()));
        Ok(Moved { records, wanted })
    }

    pub fn script(&self) -> Vec<u8> {
        script_bytes(&self.records)
    }

    pub fn lines(&self) -> usize {
        self.wanted.len()
    }

    /// The first line that a program prints otherwise.
    pub fn difference(&self, printed: &[u8]) -> Option<String> {
        let printed = String::from_utf8_lossy(printed);
        let mut lines = printed.lines();
        for (number, wanted) in (1..).zip(&self.wanted) {
            let line = lines.next().unwrap_or("no line");
            if line != wanted {
                return Some(format!(
                    "line {number}\n  before the move {wanted}\n  after it {line}"
                ));
            }
        }
        lines.next().map(|line| format!("after the last line: {line}"))
    }
}

/// The records of a script, whatever lengths they are lent.
fn all_records(mut script: &[u8]) -> Result<Vec<Record>, String> {
    let mut records = Vec::new();
    loop {
        match read_if(&mut script, |_, _| true) {
            Ok(Next::Record(record)) => records.push(record),
            Ok(Next::End) => return Ok(records),
            other => return Err(format!("the script cannot be read: {other:?}")),
        }
    }
}

fn calls(records: &[Record]) -> usize {
    records.iter().filter(|record| record.is_call()).count()
}

/// A call that is lent a store of words in place of one of bytes.
fn over_words(record: &Record) -> Record {
    Record { store: STORE_WORDS as u32, ..record.clone() }
}

/// A DUMP's lines where no upload runs.
fn without_uploads<'a>(dump: &'a [&str]) -> impl Iterator<Item = String> + 'a {
    let plans = dump.iter().filter(|line| !line.starts_with('w'));
    plans.map(|line| match line.strip_prefix("u ") {
        Some(upload) => format!("u {} -", &upload[..1]),
        None => line.to_string(),
    })
}

/// The records that bring about the state, and in the old store the items, that a DUMP shows.
fn as_shown(dump: &[&str]) -> Result<Vec<Record>, String> {
    let mut records = Vec::new();
    let mut half = 0;
    for line in dump {
        let words: Vec<&str> = line.split(' ').collect();
        if let ["k", .., plan_half] = words[..] {
            half = u8::from(plan_half == "1");
        }
        let shown = shown_by(&words, half);
        records.extend(shown.ok_or(format!("the DUMP's line {line} cannot be read"))?);
    }
    Ok(records)
}

/// The records for one line of a DUMP, about a plan in this half.
fn shown_by(words: &[&str], half: u8) -> Option<Vec<Record>> {
    match words {
        ["D", "0"] | ["u", _, "-"] => Some(vec![]),
        ["i", kind, index, digits] => old_item(kind, half, index, digits),
        ["w", kind, index, digits] => old_item(kind, 1 - half, index, digits),
        [letter, numbers @ ..] => {
            let numbers: Option<Vec<u32>> = numbers.iter().map(|word| word.parse().ok()).collect();
            pokes(letter, &numbers?)
        }
        [] => None,
    }
}

/// An item's bytes, written to its place.
fn old_item(kind: &str, half: u8, index: &str, digits: &str) -> Option<Vec<Record>> {
    let kind = kind.parse().ok().filter(|kind| *kind < KINDS)?;
    let place = Shelf::new(kind, half).place(index.parse().ok()?);
    let at = (place * ITEM_BYTES) as u32;
    Some(vec![Record::host_write(target::OLD, 0, at, from_hex(digits)?)])
}

/// Every number of a plan, of an upload, or of the progress.
fn pokes(letter: &str, numbers: &[u32]) -> Option<Vec<Record>> {
    match (letter, numbers) {
        ("k", [kind, length, number, _, half]) => {
            Some(Record::pokes(field::LENGTH, *kind as u8, &[*length, *number, *half]))
        }
        ("u", [kind, system, component, count, next, start, repeats]) => {
            let station = address(*system as u8, *component as u8);
            let upload = Upload::whole(station, *count as u16, *start);
            let upload = Upload { next: *next as u16, repeats: *repeats as u8, ..upload };
            Some(Record::upload_pokes(*kind as u8, Some(upload)))
        }
        ("c", [current, begun, counts @ ..]) => {
            let mut records = Record::pokes(field::CURRENT, 0, &[*current, *begun]);
            let counts = (0..).zip(counts);
            records.extend(counts.map(|(jump, runs)| Record::poke(field::JUMP_COUNT, jump, *runs)));
            Some(records)
        }
        _ => None,
    }
}
