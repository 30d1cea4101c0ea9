//! The call script of a table of cases, and whether the lines that it prints
//! are the wanted ones.

use std::fmt;
use std::io;
use std::iter;
use std::path::Path;

use crate::compare::{describe_record, printed, run_program};
use crate::fault::Fault;
use crate::layout::{address, Address, Item, Message, COUNT, ITEM_INT};
use crate::limits::*;
use crate::script::{array, field, record, script_bytes, Record};
use crate::table::{Act, Call, Reply, Row, Setting, TESTS};

/// What fills the stores at a fresh start.
const STORE_FILL: u8 = 0xEE;

/// Each test of a value: the item's kind, command and frame, and which of its
/// params has the value.
const VALUE_TESTS: [(u8, u16, u8, usize); TESTS] =
    [(0, 178, 2, 1), (0, 16, 3, 0), (1, 5003, 3, 0), (0, 115, 2, 0)];

/// Byte `at` of the payloads of an `n` row; none is zero.
fn filling(at: usize) -> u8 {
    (at % 255 + 1) as u8
}

/// What a host hands in beside the payload.
#[derive(Clone, Copy)]
struct Host {
    own: Address,
    sender: Address,
    clock: u32,
    store: u32,
    reply: u32,
}

const USUAL: Host = Host {
    own: address(1, 1),
    sender: address(255, 190),
    clock: 0,
    store: STORE_WORDS as u32,
    reply: REPLY_BYTES as u32,
};

/// What the lines of a record must be.
#[derive(Clone, Debug, PartialEq, Eq)]
enum Want {
    /// As both programs have it.
    Any,
    Line(String),
    /// The jump counts of a DUMP, and whether it ends with the line of home in item 0.
    Counts {
        counts: String,
        home: bool,
    },
}

/// A record, the row it comes from, and what it must print.
struct Step {
    row: usize,
    record: Record,
    want: Want,
}

/// The script of a table.
pub struct Script<'a> {
    rows: &'a [Row],
    steps: Vec<Step>,
}

impl Script<'_> {
    pub fn of(rows: &[Row]) -> Script<'_> {
        let mut writer = Writer { host: USUAL, home: false, row: 0, steps: Vec::new() };
        writer.fresh();
        for (number, row) in rows.iter().enumerate() {
            writer.row = number;
            match &row.act {
                Act::Set(setting) => writer.set(setting),
                Act::Call(call) => writer.call(call),
            }
        }
        Script { rows, steps: writer.steps }
    }

    pub fn cases(&self) -> usize {
        self.rows.iter().filter(|row| row.is_case()).count()
    }

    pub fn bytes(&self) -> Vec<u8> {
        let end = Record::of(record::END);
        script_bytes(self.steps.iter().map(|step| &step.record).chain([&end]))
    }
}

/// Makes the records of rows one by one.
struct Writer {
    host: Host,
    /// Whether fresh starts have home in item 0.
    home: bool,
    row: usize,
    steps: Vec<Step>,
}

impl Writer {
    fn push(&mut self, record: Record, want: Want) {
        self.steps.push(Step { row: self.row, record, want });
    }

    fn fresh(&mut self) {
        self.host = USUAL;
        self.push(Record::fresh(STORE_FILL, self.home), Want::Any);
    }

    fn pokes(&mut self, pokes: Vec<Record>) {
        pokes.into_iter().for_each(|poke| self.push(poke, Want::Any));
    }

    fn set(&mut self, setting: &Setting) {
        match setting {
            Setting::Fresh { home } => {
                self.home = *home;
                self.fresh();
            }
            Setting::Own(own) => self.host.own = *own,
            Setting::Sender(sender) => self.host.sender = *sender,
            Setting::Clock(clock) => self.host.clock = *clock,
            Setting::Lent { store, reply } => {
                (self.host.store, self.host.reply) = (*store, *reply);
            }
            Setting::Copies => {
                self.push(Record::about(record::SNAP, array::STORE), Want::Any);
                self.push(Record::about(record::SNAP, array::OLD), Want::Any);
            }
            Setting::Current { item, begun } => {
                let mut values = vec![u32::from(*item)];
                values.extend(begun.map(u32::from));
                self.pokes(Record::pokes(field::CURRENT, 0, &values));
            }
            Setting::Plan { kind, numbers } => {
                self.pokes(Record::pokes(field::LENGTH, *kind, numbers))
            }
            Setting::Upload { kind, upload } => {
                self.pokes(Record::upload_pokes(*kind, Some(*upload)))
            }
            Setting::Write { written, kind, at, bytes } => {
                self.push(Record::host_write(*written, *kind, *at, bytes.clone()), Want::Any);
            }
        }
    }

    fn call(&mut self, call: &Call) {
        match call {
            Call::Message { id, payload, wanted } => self.message(*id, payload.clone(), wanted),
            Call::Timer { kind, wanted } => self.timer(*kind, wanted),
            Call::Items { item, last, wanted } => self.items(*item, *last, wanted),
            Call::Upload { item, count, result } => self.upload(*item, *count, *result),
            Call::Value { pattern, results } => self.value(*pattern, results),
            Call::Lengths { id, first, last, wanted } => {
                for len in *first..=*last {
                    self.message(*id, (0..len).map(filling).collect(), wanted);
                }
            }
            Call::Done { answer, counts } => self.done(answer, counts),
            Call::Move { old, outcome } => {
                let moving = Record::moving(*old, self.host.store);
                self.push(moving, Want::Line(format!("v {outcome}")));
            }
            Call::AsCopied([store, old]) => {
                for (array, same) in [(array::STORE, store), (array::OLD, old)] {
                    self.push(Record::about(record::CMP, array), Want::Line(format!("s {same}")));
                }
            }
        }
    }

    fn message(&mut self, id: u32, payload: Vec<u8>, wanted: &Reply) {
        let Host { own, sender, clock, store, reply } = self.host;
        let b = [own.system, own.component, sender.system, sender.component, 0];
        let message = Record { kind: record::MESSAGE, b, a: id, clock, store, reply, payload };
        self.push(message, Want::Line(line('m', wanted)));
    }

    fn timer(&mut self, kind: u8, wanted: &Reply) {
        let Host { clock, store, reply, .. } = self.host;
        let b = [0, 0, 0, 0, kind];
        let timer = Record { b, clock, store, reply, ..Record::of(record::TIMER) };
        self.push(timer, Want::Line(line('t', wanted)));
    }

    /// The request for an item, to the sender.
    fn request(&self, seq: u16, kind: u8) -> Reply {
        reply_of(Message::RequestInt { seq, to: self.host.sender, kind })
    }

    /// An item to us, all its bytes.
    fn item(&mut self, item: Item, wanted: &Reply) {
        let bytes = Item { to: self.host.own, ..item }.to_bytes();
        self.message(ITEM_INT, bytes.to_vec(), wanted);
    }

    /// Items with the same fields; each before the last gets the next requested.
    fn items(&mut self, item: Item, last: u16, wanted: &Reply) {
        for seq in item.seq..last {
            self.item(Item { seq, ..item }, &self.request(seq + 1, item.kind));
        }
        self.item(Item { seq: last, ..item }, wanted);
    }

    /// A COUNT and its items from a fresh start, and the last item's ACK.
    fn upload(&mut self, item: Item, count: u16, result: u8) {
        self.fresh();
        let (kind, Address { system, component }) = (item.kind, self.host.own);
        let [low, high] = count.to_le_bytes();
        let payload = vec![low, high, system, component, kind];
        self.message(COUNT, payload, &self.request(0, kind));
        let before = if usize::from(kind) == FLIGHT { waypoint() } else { item };
        for seq in 0..item.seq {
            self.item(Item { seq, ..before }, &self.request(seq + 1, kind));
        }
        let (to, number) = (self.host.sender, u32::from(result == 0));
        self.item(item, &reply_of(Message::Ack { to, result, kind, number }));
    }

    fn value(&mut self, pattern: u32, results: &[u8; TESTS]) {
        for ((kind, command, frame, param), result) in VALUE_TESTS.into_iter().zip(results) {
            let mut item = Item { kind, command, frame, ..waypoint() };
            item.params[param] = pattern;
            self.upload(item, 1, *result);
        }
    }

    /// The call, and a DUMP that shows the counts.
    fn done(&mut self, answer: &str, counts: &Option<[u16; MAX_JUMPS]>) {
        let done = Record { store: self.host.store, ..Record::of(record::DONE) };
        self.push(done, Want::Line(format!("d {answer}")));
        let shown = match counts {
            None => Want::Any,
            Some(counts) => {
                let counts = counts.map(|count| count.to_string()).join(" ");
                Want::Counts { counts, home: self.home }
            }
        };
        self.push(Record::of(record::DUMP), shown);
    }
}

/// A valid flight item.
fn waypoint() -> Item {
    Item { command: 16, frame: 3, autocontinue: 1, ..Item::default() }
}

fn reply_of(message: Message) -> Reply {
    Reply { outcome: 0, id: message.id(), bytes: message.write().trimmed().to_vec() }
}

/// A message or timer call's line.
fn line(letter: char, reply: &Reply) -> String {
    let Reply { outcome, id, bytes } = reply;
    let hex: String = bytes.iter().map(|byte| format!("{byte:02X}")).collect();
    let shown = if hex.is_empty() { "-" } else { &hex };
    format!("{letter} {outcome} {id} {} {shown}", bytes.len())
}

/// A case whose lines are not as wanted.
#[derive(Clone, Debug, PartialEq, Eq)]
pub struct Miss {
    /// The row's line in the table, and its name.
    pub line: usize,
    pub name: String,
    /// The record whose line it is.
    pub record: String,
    pub wanted: String,
    /// Each program, and its line.
    pub got: Vec<(&'static str, String)>,
}

impl fmt::Display for Miss {
    fn fmt(&self, f: &mut fmt::Formatter) -> fmt::Result {
        writeln!(f, "line {}: {}", self.line, self.name)?;
        writeln!(f, "  record:    {}", self.record)?;
        write!(f, "  wanted:    {}", self.wanted)?;
        for (program, line) in &self.got {
            write!(f, "\n  {:10} {line}", format!("{program}:"))?;
        }
        Ok(())
    }
}

/// What a program printed for a script.
pub struct Printed {
    program: &'static str,
    text: String,
}

impl Printed {
    pub fn by_reference(script: &Script) -> Printed {
        Printed::from("reference", printed(&script.bytes(), Fault::None))
    }

    pub fn by_console(script: &Script, console: &Path) -> io::Result<Printed> {
        Ok(Printed::from("console", run_program(console, script.bytes())?))
    }

    fn from(program: &'static str, bytes: Vec<u8>) -> Printed {
        Printed { program, text: String::from_utf8_lossy(&bytes).into_owned() }
    }

    pub fn lines(&self) -> usize {
        self.text.matches('\n').count()
    }
}

/// Parts a program's lines, with their ends, by the records that print them;
/// what is left over goes to the last record.
fn shares<'a>(steps: &[Step], text: &'a str) -> Vec<Vec<&'a str>> {
    let mut lines = text.split_inclusive('\n').peekable();
    let mut shares: Vec<Vec<&str>> = Vec::with_capacity(steps.len());
    for step in steps {
        let share = match step.record.kind {
            record::MESSAGE | record::TIMER | record::DONE | record::CMP | record::MOVE => {
                lines.next().into_iter().collect()
            }
            record::DUMP => iter::from_fn(|| lines.next_if(|line| of_dump(line))).collect(),
            _ => Vec::new(),
        };
        shares.push(share);
    }
    if let Some(last) = shares.last_mut() {
        last.extend(lines);
    }
    shares
}

/// A DUMP's last line where home is in item 0.
const HOME_LINE: &str = "h 1\n";

/// True if a DUMP may print the line; no call prints one that begins so.
fn of_dump(line: &str) -> bool {
    line.starts_with(['D', 'k', 'u', 'i', 'w', 'c', 'h'])
}

impl Want {
    fn holds(&self, share: &[&str]) -> bool {
        match (self, share) {
            (Want::Any, _) => true,
            (Want::Line(wanted), [.., last]) => last.strip_suffix('\n') == Some(wanted),
            (Want::Counts { counts, home: false }, [.., last])
            | (Want::Counts { counts, home: true }, [.., last, HOME_LINE]) => {
                last.strip_suffix('\n').and_then(counts_of) == Some(counts)
            }
            _ => false,
        }
    }

    fn in_words(&self) -> String {
        match self {
            Want::Any => "the same of each".to_string(),
            Want::Line(line) => line.clone(),
            Want::Counts { counts, home } => {
                let then_home = if *home { ", h 1" } else { "" };
                format!("c CURRENT BEGUN {counts}{then_home}")
            }
        }
    }
}

/// A line without its end.
fn shown(line: Option<&str>) -> String {
    match line.map(|line| line.strip_suffix('\n').ok_or(line)) {
        None => "no line".to_string(),
        Some(Ok(whole)) => whole.to_string(),
        Some(Err(cut)) => format!("{cut} (cut)"),
    }
}

/// The counts of a `c` line.
fn counts_of(line: &str) -> Option<&str> {
    let mut words = line.splitn(4, ' ');
    match (words.next(), words.nth(2)) {
        (Some("c"), counts) => counts,
        _ => None,
    }
}

/// The first place where the programs' shares are not the same.
fn first_apart(shares: &[&[&str]]) -> Option<usize> {
    let most = shares.iter().map(|share| share.len()).max()?;
    (0..most).find(|at| shares.iter().any(|share| share.get(*at) != shares[0].get(*at)))
}

/// What is wanted of a record, and each program's line, where these are not as
/// wanted or not the same.
fn missed<'a>(want: &Want, shares: &[&[&'a str]]) -> Option<(String, Vec<Option<&'a str>>)> {
    if !shares.iter().all(|share| want.holds(share)) {
        return Some((want.in_words(), shares.iter().map(|share| share.last().copied()).collect()));
    }
    let at = first_apart(shares)?;
    Some((Want::Any.in_words(), shares.iter().map(|share| share.get(at).copied()).collect()))
}

/// Each case with a line that is not as wanted, or not the same of all
/// programs; of each, its first such line.
pub fn misses(script: &Script, programs: &[Printed]) -> Vec<Miss> {
    let parted: Vec<_> = programs.iter().map(|one| shares(&script.steps, &one.text)).collect();
    let mut misses: Vec<Miss> = Vec::new();
    for (at, step) in script.steps.iter().enumerate() {
        let Row { line, name, .. } = &script.rows[step.row];
        if misses.last().is_some_and(|miss| miss.line == *line) {
            continue;
        }
        let shares: Vec<&[&str]> = parted.iter().map(|shares| &shares[at][..]).collect();
        if let Some((wanted, got)) = missed(&step.want, &shares) {
            let (name, record) = (name.clone(), describe_record(&step.record));
            let lines = got.into_iter().map(shown);
            let got = programs.iter().map(|one| one.program).zip(lines).collect();
            misses.push(Miss { line: *line, name, record, wanted, got });
        }
    }
    misses
}

#[cfg(test)]
mod tests {
    use super::*;
    use crate::table;
    use std::fs;

    /// The text of every table.
    fn tables() -> Vec<String> {
        let folder = concat!(env!("CARGO_MANIFEST_DIR"), "/../vectors");
        let files = fs::read_dir(folder).unwrap().map(|file| file.unwrap().path());
        let tables = files.filter(|file| file.extension().is_some_and(|end| end == "txt"));
        let tables: Vec<String> = tables.map(|file| fs::read_to_string(file).unwrap()).collect();
        assert!(!tables.is_empty());
        tables
    }

    /// The line with another character at a place of its WANTED.
    fn changed(line: &str, at: usize) -> String {
        let other = match line.as_bytes()[at] {
            b'0'..=b'8' | b'a'..=b'e' => char::from(line.as_bytes()[at] + 1),
            b'9' => '0',
            _ => 'a',
        };
        format!("{}{other}{}", &line[..at], &line[at + 1..])
    }

    /// Where the first and the last character of a line's WANTED stand.
    fn ends_of_wanted(line: &str) -> [usize; 2] {
        let from = line.find('>').unwrap() + 1;
        let wanted = &line[from..];
        [line.len() - wanted.trim_start().len(), line.trim_end().len() - 1]
    }

    fn records(script: &Script) -> Vec<Record> {
        script.steps.iter().map(|step| step.record.clone()).collect()
    }

    #[test]
    fn a_changed_wanted_is_noticed_and_named() {
        for text in tables() {
            let lines: Vec<&str> = text.lines().collect();
            let mut rows = table::read(&text).unwrap();
            let good = Script::of(&rows);
            let (programs, records) = ([Printed::by_reference(&good)], records(&good));
            assert_eq!(misses(&good, &programs), []);
            for at in (0..rows.len()).filter(|at| rows[*at].is_case()).collect::<Vec<_>>() {
                let line = rows[at].line;
                for place in ends_of_wanted(lines[line - 1]) {
                    let other = table::read_row(line, &changed(lines[line - 1], place)).unwrap();
                    let row = std::mem::replace(&mut rows[at], other);
                    let script = Script::of(&rows);
                    assert!(script.steps.iter().map(|step| &step.record).eq(&records));
                    let found = misses(&script, &programs);
                    assert_eq!(found.len(), 1, "line {line}");
                    assert_eq!((found[0].line, &found[0].name), (line, &row.name));
                    assert_ne!(found[0].wanted, found[0].got[0].1);
                    rows[at] = row;
                }
            }
        }
    }

    /// A copy of the reference's lines that stands for the console's.
    fn console(text: String) -> Printed {
        Printed { program: "console", text }
    }

    #[test]
    fn a_changed_line_of_the_console_is_noticed() {
        let text = tables().remove(0);
        let rows = table::read(&text).unwrap();
        let script = Script::of(&rows);
        let good = Printed::by_reference(&script).text;
        let mut programs = [Printed::by_reference(&script), console(String::new())];
        let ends: Vec<usize> = good.match_indices('\n').map(|(at, _)| at).collect();
        for end in ends.iter().step_by(29) {
            programs[1].text.clone_from(&good);
            programs[1].text.insert(*end, '0');
            let found = misses(&script, &programs);
            let [Miss { got, .. }] = &found[..] else { panic!("{found:?}") };
            let [("reference", line), ("console", changed)] = &got[..] else { panic!("{got:?}") };
            assert_eq!(*changed, format!("{line}0"));
        }
    }

    #[test]
    fn lines_too_many_or_too_few() {
        let rows = table::read("a: t 0 > 1\nb: d > 1 finished\n").unwrap();
        let script = Script::of(&rows);
        let good = Printed::by_reference(&script).text;
        let found = |text: String| {
            let found = misses(&script, &[Printed::by_reference(&script), console(text)]);
            found.into_iter().map(|miss| (miss.line, miss.got[1].1.clone())).collect::<Vec<_>>()
        };
        assert_eq!(found(good.clone()), []);
        assert_eq!(found(format!("{good}more\n")), [(2, "more".to_string())]);
        assert_eq!(found("t 1 0 0 -\n".to_string()), [(2, "no line".to_string())]);
        let cut = [(2, "c 0 0 0 0 0 0 0 0 0 0 0 0 0 0 0 0 0 (cut)".to_string())];
        assert_eq!(found(good.trim_end().to_string()), cut);
        let stopped = [(1, "? 5".to_string()), (2, "no line".to_string())];
        assert_eq!(found("? 5\n".to_string()), stopped);
    }

    #[test]
    fn each_call_before_the_last_is_looked_at() {
        let text =
            "count: m 44 03000101 > 0 51 0000ffbe\nall three: i 0 0 2 16 3 > 0 47 ffbe000001\n";
        let rows = table::read(text).unwrap();
        let script = Script::of(&rows);
        let good = Printed::by_reference(&script).text;
        assert_eq!(misses(&script, &[console(good.clone())]), []);
        let skipped = good.replace("m 0 51 4 0200FFBE\n", "m 0 51 4 0100FFBE\n");
        let found = misses(&script, &[console(skipped)]);
        assert_eq!((found.len(), found[0].line), (1, 2));
        assert_eq!(found[0].wanted, "m 0 51 4 0200FFBE");
    }

    #[test]
    fn counts_not_named_are_looked_at() {
        let text = "count: m 44 02000101 > 0 51 0000ffbe\n\
                    waypoint: i 0 0 0 16 3 > 0 51 0100ffbe\n\
                    jump: i 0 1 1 177 3 0 1 > 0 47 ffbe000001\n\
                    first: d > 1 fly 0\n\
                    second: d > 1 fly 0\n";
        let rows = table::read(text).unwrap();
        let script = Script::of(&rows);
        let found = misses(&script, &[Printed::by_reference(&script)]);
        let shown = [(5, "c 0 1 1 0 0 0 0 0 0 0 0 0 0 0 0 0 0")];
        assert_eq!(
            found.iter().map(|miss| (miss.line, &miss.got[0].1[..])).collect::<Vec<_>>(),
            shown
        );
    }

    #[test]
    fn home_stays_until_the_next_fresh_start() {
        let text = "with home: f home\n\
                    another start: u 0 1 22 3 > 3\n\
                    its plan: d > 1 finished\n\
                    without home: f\n\
                    a start again: u 0 1 22 3 > 0\n\
                    item 0: d > 1 fly 0\n";
        let rows = table::read(text).unwrap();
        let script = Script::of(&rows);
        let good = Printed::by_reference(&script).text;
        assert_eq!(misses(&script, &[console(good.clone())]), []);
        let of_home = good.replacen("h 1\n", "", 1);
        let found = misses(&script, &[console(of_home)]);
        let wanted = format!("c CURRENT BEGUN {}, h 1", ["0"; MAX_JUMPS].join(" "));
        assert_eq!((found.len(), found[0].line, &found[0].wanted), (1, 3, &wanted));
        let of_none = format!("{good}h 1\n");
        assert_eq!(misses(&script, &[console(of_none)])[0].line, 6);
    }

    #[test]
    fn a_miss_in_words() {
        let rows = table::read("a fresh start: f\nfirst: t 0 > 12\n").unwrap();
        let script = Script::of(&rows);
        let found = misses(&script, &[Printed::by_reference(&script)]);
        let words = "line 2: first\n  \
                     record:    TIMER kind 0 clock 0 store 5632 reply 54\n  \
                     wanted:    t 12 0 0 -\n  \
                     reference: t 1 0 0 -";
        assert_eq!(found[0].to_string(), words);
    }
}
