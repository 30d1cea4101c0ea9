//! Tables of cases: their rows, read from text. The head of `vectors/calls.txt`
//! explains the form.

use std::collections::HashMap;

use crate::layout::{address, Address, Item};
use crate::limits::{KINDS, MAX_JUMPS};
use crate::script::{target, write_fits, MAX_PAYLOAD, OLD_ARRAY, REPLY_ARRAY, STORE_ARRAY};
use crate::state::Upload;

/// How many tests a value's pattern is put to.
pub const TESTS: usize = 4;

/// A row of a table.
#[derive(Clone, Debug, PartialEq, Eq)]
pub struct Row {
    /// Its line, from 1.
    pub line: usize,
    pub name: String,
    pub act: Act,
}

impl Row {
    /// True if the row has a WANTED.
    pub fn is_case(&self) -> bool {
        matches!(self.act, Act::Call(..))
    }
}

#[derive(Clone, Debug, PartialEq, Eq)]
pub enum Act {
    Set(Setting),
    Call(Call),
}

/// What a row without a WANTED sets.
#[derive(Clone, Debug, PartialEq, Eq)]
pub enum Setting {
    /// A fresh start, with or without home in item 0.
    Fresh {
        home: bool,
    },
    Own(Address),
    Sender(Address),
    Clock(u32),
    Lent {
        store: u32,
        reply: u32,
    },
    /// Copies of the store and of the store of bytes.
    Copies,
    /// The current item, and whether it has begun.
    Current {
        item: u16,
        begun: Option<bool>,
    },
    /// A plan: length, number, half.
    Plan {
        kind: u8,
        numbers: [u32; 3],
    },
    Upload {
        kind: u8,
        upload: Upload,
    },
    /// A host's write about a target, as call scripts have it.
    Write {
        written: u8,
        kind: u8,
        at: u32,
        bytes: Vec<u8>,
    },
}

/// The calls of a case, and what it wants of them.
#[derive(Clone, Debug, PartialEq, Eq)]
pub enum Call {
    Message {
        id: u32,
        payload: Vec<u8>,
        wanted: Reply,
    },
    Timer {
        kind: u8,
        wanted: Reply,
    },
    /// Items from the given one's number to the last.
    Items {
        item: Item,
        last: u16,
        wanted: Reply,
    },
    /// An upload whose last item is the given one.
    Upload {
        item: Item,
        count: u16,
        result: u8,
    },
    /// A pattern put to the tests of values.
    Value {
        pattern: u32,
        results: [u8; TESTS],
    },
    /// Payloads of these lengths.
    Lengths {
        id: u32,
        first: usize,
        last: usize,
        wanted: Reply,
    },
    /// A refused call has no counts.
    Done {
        answer: String,
        counts: Option<[u16; MAX_JUMPS]>,
    },
    /// The move out of so many bytes.
    Move {
        old: u32,
        outcome: u8,
    },
    /// Whether the store and the store of bytes are as copied.
    AsCopied([u8; 2]),
}

/// What a message or timer call returns; without a reply the id is 0.
#[derive(Clone, Debug, Default, PartialEq, Eq)]
pub struct Reply {
    pub outcome: u8,
    pub id: u32,
    pub bytes: Vec<u8>,
}

/// Reads a table; an error names its line.
pub fn read(text: &str) -> Result<Vec<Row>, String> {
    let mut rows = Vec::new();
    let mut lines_of = HashMap::new();
    for (line, text) in (1..).zip(text.lines()) {
        if text.starts_with('#') || text.trim().is_empty() {
            continue;
        }
        let row = read_row(line, text)?;
        if row.is_case() {
            if let Some(before) = lines_of.insert(row.name.clone(), line) {
                return Err(format!("line {line}: line {before} has this case's name"));
            }
        }
        rows.push(row);
    }
    if lines_of.is_empty() {
        return Err("no case".to_string());
    }
    Ok(rows)
}

/// Reads the row of a line.
pub fn read_row(line: usize, text: &str) -> Result<Row, String> {
    let parts = text.split_once(':').filter(|(name, _)| !name.trim().is_empty());
    let row = parts.ok_or("no NAME:".to_string()).and_then(|(name, rest)| {
        let act = match rest.split_once('>') {
            None => read_setting(&mut Words::of(rest)).map(Act::Set),
            Some((args, wanted)) => {
                read_call(&mut Words::of(args), &mut Words::of(wanted)).map(Act::Call)
            }
        };
        Ok(Row { line, name: name.trim().to_string(), act: act? })
    });
    row.map_err(|message| format!("line {line}: {message}"))
}

fn read_setting(args: &mut Words) -> Result<Setting, String> {
    let setting = match args.next("OP")? {
        "f" => Setting::Fresh { home: args.mark("home")? },
        "o" => Setting::Own(args.address()?),
        "s" => Setting::Sender(args.address()?),
        "c" => Setting::Clock(args.number("MS")?),
        "l" => Setting::Lent {
            store: args.at_most("STORE", STORE_ARRAY)? as u32,
            reply: args.at_most("REPLY", REPLY_ARRAY)? as u32,
        },
        "a" => Setting::Copies,
        "p" => args.progress()?,
        "k" => args.plan()?,
        "r" => args.upload()?,
        "w" => args.write(target::WORDS)?,
        "h" => args.write(target::PLAN)?,
        "g" => args.write(target::OTHER_HALF)?,
        "b" => args.write(target::OLD)?,
        op => return Err(format!("no OP {op} without a WANTED")),
    };
    args.end()?;
    Ok(setting)
}

fn read_call(args: &mut Words, wanted: &mut Words) -> Result<Call, String> {
    let call = match args.next("OP")? {
        "m" => Call::Message {
            id: args.number("ID")?,
            payload: args.bytes(MAX_PAYLOAD)?,
            wanted: wanted.reply()?,
        },
        "t" => Call::Timer { kind: args.number("KIND")?, wanted: wanted.reply()? },
        "i" => read_items(args, wanted)?,
        "u" => read_upload(args, wanted)?,
        "v" => Call::Value { pattern: args.pattern("PATTERN")?, results: wanted.results()? },
        "n" => read_lengths(args, wanted)?,
        "d" => read_done(wanted)?,
        "x" => Call::Move {
            old: args.at_most("OLD", OLD_ARRAY)? as u32,
            outcome: wanted.number("OUTCOME")?,
        },
        "e" => Call::AsCopied([wanted.number("STORE")?, wanted.number("OLD")?]),
        op => return Err(format!("no OP {op} with a WANTED")),
    };
    args.end()?;
    wanted.end()?;
    Ok(call)
}

fn in_order<T: PartialOrd>(first: T, last: T) -> Result<(), String> {
    if last < first {
        return Err("LAST is below FIRST".to_string());
    }
    Ok(())
}

fn read_items(args: &mut Words, wanted: &mut Words) -> Result<Call, String> {
    let (kind, seq, last) = (args.number("KIND")?, args.number("FIRST")?, args.number("LAST")?);
    in_order(seq, last)?;
    let item = Item { kind, seq, ..args.item()? };
    Ok(Call::Items { item, last, wanted: wanted.reply()? })
}

fn read_lengths(args: &mut Words, wanted: &mut Words) -> Result<Call, String> {
    let id = args.number("ID")?;
    let first = args.at_most("FIRST", MAX_PAYLOAD)?;
    let last = args.at_most("LAST", MAX_PAYLOAD)?;
    in_order(first, last)?;
    Ok(Call::Lengths { id, first, last, wanted: wanted.reply()? })
}

fn read_upload(args: &mut Words, wanted: &mut Words) -> Result<Call, String> {
    let (kind, count) = (args.number("KIND")?, args.number("COUNT")?);
    if count == 0 {
        return Err("COUNT is 0".to_string());
    }
    let item = Item { kind, seq: count - 1, ..args.item()? };
    Ok(Call::Upload { item, count, result: wanted.number("RESULT")? })
}

/// The answer, and after a comma the counts.
fn read_done(wanted: &mut Words) -> Result<Call, String> {
    let mut answer = Vec::new();
    let mut counted = false;
    for word in wanted.0.by_ref() {
        answer.push(word.trim_end_matches(','));
        counted = word.ends_with(',');
        if counted {
            break;
        }
    }
    let counts = match answer[..] {
        [] => return Err("OUTCOME is missing".to_string()),
        ["14" | "15", ..] if counted => return Err("a refused call has no counts".to_string()),
        ["14" | "15", ..] => None,
        _ if counted => Some(wanted.counts()?),
        _ => Some([0; MAX_JUMPS]),
    };
    Ok(Call::Done { answer: answer.join(" "), counts })
}

/// The words of a row that are not read yet.
struct Words<'a>(std::iter::Peekable<std::str::SplitAsciiWhitespace<'a>>);

impl<'a> Words<'a> {
    fn of(text: &'a str) -> Words<'a> {
        Words(text.split_ascii_whitespace().peekable())
    }

    fn next(&mut self, what: &str) -> Result<&'a str, String> {
        self.0.next().ok_or(format!("{what} is missing"))
    }

    fn end(&mut self) -> Result<(), String> {
        match self.0.next() {
            None => Ok(()),
            Some(word) => Err(format!("{word}: too much")),
        }
    }

    fn number<T: TryFrom<i64>>(&mut self, what: &str) -> Result<T, String> {
        let word = self.next(what)?;
        let number = word.parse().ok().and_then(|number: i64| T::try_from(number).ok());
        number.ok_or(format!("{what} {word}: no number that fits"))
    }

    fn at_most(&mut self, what: &str, most: usize) -> Result<usize, String> {
        let number = self.number(what)?;
        (number <= most).then_some(number).ok_or(format!("{what} {number}: above {most}"))
    }

    /// Whether this word stands at the end.
    fn mark(&mut self, mark: &str) -> Result<bool, String> {
        match self.0.next() {
            None => Ok(false),
            Some(word) if word == mark => Ok(true),
            Some(word) => Err(format!("{word}: not `{mark}`")),
        }
    }

    fn progress(&mut self) -> Result<Setting, String> {
        let item = self.number("ITEM")?;
        let begun = match self.0.peek() {
            None => None,
            Some(_) => Some(self.at_most("BEGUN", 1)? == 1),
        };
        Ok(Setting::Current { item, begun })
    }

    fn address(&mut self) -> Result<Address, String> {
        Ok(address(self.number("SYSTEM")?, self.number("COMPONENT")?))
    }

    fn kind(&mut self) -> Result<u8, String> {
        Ok(self.at_most("KIND", KINDS - 1)? as u8)
    }

    fn plan(&mut self) -> Result<Setting, String> {
        let kind = self.kind()?;
        let length = self.at_most("LENGTH", usize::from(u16::MAX))? as u32;
        let numbers = [length, self.number("NUMBER")?, self.at_most("HALF", 1)? as u32];
        Ok(Setting::Plan { kind, numbers })
    }

    fn upload(&mut self) -> Result<Setting, String> {
        let kind = self.kind()?;
        let (station, count) = (self.address()?, self.number("COUNT")?);
        let (next, start) = (self.number("NEXT")?, self.number("START")?);
        let repeats = self.number("REPEATS")?;
        let whole = Upload { next, repeats, ..Upload::whole(station, count, start) };
        let partial = match self.0.next() {
            None => return Ok(Setting::Upload { kind, upload: whole }),
            Some("W") => false,
            Some("P") => true,
            Some(word) => return Err(format!("{word}: neither W nor P")),
        };
        let (first, last) = (self.number("FIRST")?, self.number("LAST")?);
        Ok(Setting::Upload { kind, upload: Upload { partial, first, last, ..whole } })
    }

    fn write(&mut self, written: u8) -> Result<Setting, String> {
        let kind = match written {
            target::PLAN | target::OTHER_HALF => self.kind()?,
            _ => 0,
        };
        let at = self.number("PLACE")?;
        let bytes = self.bytes(MAX_PAYLOAD)?;
        if !write_fits(written, kind, at as usize, bytes.len()) {
            return Err(format!("{at}: cut words or items, or past the end"));
        }
        Ok(Setting::Write { written, kind, at, bytes })
    }

    /// Bytes in hex, `-` for none.
    fn bytes(&mut self, most: usize) -> Result<Vec<u8>, String> {
        let word = self.next("BYTES")?;
        if word == "-" {
            return Ok(Vec::new());
        }
        let hex = word.bytes().all(|digit| digit.is_ascii_hexdigit());
        if !hex || word.len() % 2 != 0 || word.len() / 2 > most {
            return Err(format!("{word}: not at most {most} bytes in hex"));
        }
        let byte = |at: usize| u8::from_str_radix(&word[at..at + 2], 16).expect("two hex digits");
        Ok((0..word.len()).step_by(2).map(byte).collect())
    }

    /// The fields from COMMAND on; those left out at the end are 0.
    fn item(&mut self) -> Result<Item, String> {
        let (command, frame) = (self.number("COMMAND")?, self.number("FRAME")?);
        let params = [self.pattern_or_0("PARAM1")?, self.pattern_or_0("PARAM2")?, 0, 0];
        let (x, y) = (self.coordinate("X")?, self.coordinate("Y")?);
        let z = self.pattern_or_0("Z")?;
        Ok(Item { params, x, y, z, command, frame, autocontinue: 1, ..Item::default() })
    }

    fn pattern_or_0(&mut self, what: &str) -> Result<u32, String> {
        match self.0.peek() {
            None => Ok(0),
            Some(_) => self.pattern(what),
        }
    }

    /// The bit pattern of a float: after 0x, or of a number that is exactly one.
    fn pattern(&mut self, what: &str) -> Result<u32, String> {
        let word = self.next(what)?;
        if let Some(digits) = word.strip_prefix("0x") {
            return hex_word(digits).ok_or(format!("{what} {word}: not eight hex digits"));
        }
        let value: f32 = word.parse().unwrap_or(f32::NAN);
        let exact = word.parse().is_ok_and(|exact: f64| exact == f64::from(value));
        let pattern = (exact && value.is_finite()).then_some(value.to_bits());
        pattern.ok_or(format!("{what} {word}: not exactly a float of 32 bits"))
    }

    /// A signed number, or its bit pattern after 0x; 0 if left out.
    fn coordinate(&mut self, what: &str) -> Result<i32, String> {
        let digits = match self.0.peek() {
            None => return Ok(0),
            Some(word) => word.strip_prefix("0x"),
        };
        match digits {
            None => self.number(what),
            Some(_) => self.pattern(what).map(|pattern| pattern as i32),
        }
    }

    fn reply(&mut self) -> Result<Reply, String> {
        let outcome = self.number("OUTCOME")?;
        if self.0.peek().is_none() {
            return Ok(Reply { outcome, ..Reply::default() });
        }
        let (id, bytes) = (self.number("ID")?, self.bytes(REPLY_ARRAY)?);
        Ok(Reply { outcome, id, bytes })
    }

    fn results(&mut self) -> Result<[u8; TESTS], String> {
        let mut results = [0; TESTS];
        for result in &mut results {
            *result = self.number("RESULT")?;
        }
        Ok(results)
    }

    /// The word `counts` and one count or more; those left out are 0.
    fn counts(&mut self) -> Result<[u16; MAX_JUMPS], String> {
        match self.next("counts")? {
            "counts" => {}
            word => return Err(format!("{word}: not `counts`")),
        }
        let mut counts = [0; MAX_JUMPS];
        counts[0] = self.number("COUNT")?;
        for count in &mut counts[1..] {
            if self.0.peek().is_some() {
                *count = self.number("COUNT")?;
            }
        }
        Ok(counts)
    }
}

fn hex_word(digits: &str) -> Option<u32> {
    let whole = digits.len() == 8 && digits.bytes().all(|digit| digit.is_ascii_hexdigit());
    whole.then(|| u32::from_str_radix(digits, 16).ok()).flatten()
}

#[cfg(test)]
mod tests {
    use super::*;

    fn call(text: &str) -> Call {
        match read_row(1, text).unwrap().act {
            Act::Call(call) => call,
            Act::Set(setting) => panic!("{setting:?}"),
        }
    }

    fn item_of(text: &str) -> Item {
        match call(text) {
            Call::Items { item, .. } | Call::Upload { item, .. } => item,
            other => panic!("{other:?}"),
        }
    }

    #[test]
    fn rows_and_comments() {
        let rows = read("# what follows\n\na start:  f\nno upload :t 2  >  1\n").unwrap();
        assert_eq!((rows[0].line, rows[0].name.as_str()), (3, "a start"));
        assert_eq!(rows[0].act, Act::Set(Setting::Fresh { home: false }));
        assert_eq!((rows[1].line, rows[1].name.as_str()), (4, "no upload"));
        let wanted = Reply { outcome: 1, id: 0, bytes: vec![] };
        assert_eq!(rows[1].act, Act::Call(Call::Timer { kind: 2, wanted }));
    }

    #[test]
    fn messages() {
        let wanted = Reply { outcome: 0, id: 51, bytes: vec![0, 0, 0xFF, 0xBE] };
        let payload = vec![0, 0xAB];
        assert_eq!(
            call("a: m 44 00aB > 0 51 0000ffbe"),
            Call::Message { id: 44, payload, wanted: wanted.clone() }
        );
        let (id, payload) = (99, vec![]);
        let refused = Reply { outcome: 11, ..Reply::default() };
        assert_eq!(call("a: m 99 - > 11"), Call::Message { id, payload, wanted: refused });
        assert_eq!(
            call("a: n 43 3 300 > 0 51 0000FFBE"),
            Call::Lengths { id: 43, first: 3, last: 300, wanted }
        );
    }

    #[test]
    fn items_with_fields_left_out() {
        let Call::Items { item, last, .. } = call("a: i 1 2 5 5001 3 2.5 > 1") else { panic!() };
        assert_eq!((item.kind, item.seq, last), (1, 2, 5));
        assert_eq!((item.command, item.frame, item.autocontinue), (5001, 3, 1));
        assert_eq!((item.params, item.x, item.y, item.z), ([0x4020_0000, 0, 0, 0], 0, 0, 0));
        let item = item_of("a: u 2 4 5100 3 -0 0x7f800001 -7 0xffffffff -1 > 0");
        assert_eq!((item.kind, item.seq), (2, 3));
        assert_eq!(item.params, [0x8000_0000, 0x7f80_0001, 0, 0]);
        assert_eq!((item.x, item.y, item.z), (-7, -1, 0xbf80_0000));
    }

    #[test]
    fn command_done() {
        let done = |answer: &str, counts| Call::Done { answer: answer.to_string(), counts };
        let mut counts = [0; MAX_JUMPS];
        assert_eq!(call("a: d > 1  fly 2"), done("1 fly 2", Some(counts)));
        assert_eq!(call("a: d > 15 stuck"), done("15 stuck", None));
        counts[1] = 31;
        assert_eq!(call("a: d > 1 fly 2, counts 0 31"), done("1 fly 2", Some(counts)));
    }

    #[test]
    fn settings() {
        let set = |text: &str| read_row(1, text).unwrap().act;
        assert_eq!(set("a: f home"), Act::Set(Setting::Fresh { home: true }));
        for (text, begun) in [("a: p 7", None), ("a: p 7 0", Some(false)), ("a: p 7 1", Some(true))]
        {
            assert_eq!(set(text), Act::Set(Setting::Current { item: 7, begun }));
        }
        assert_eq!(set("a: o 3 4"), Act::Set(Setting::Own(address(3, 4))));
        assert_eq!(set("a: c 4294967295"), Act::Set(Setting::Clock(u32::MAX)));
        assert_eq!(set("a: l 5664 64"), Act::Set(Setting::Lent { store: 5_664, reply: 64 }));
        assert_eq!(set("a: a"), Act::Set(Setting::Copies));
        let plan = Setting::Plan { kind: 2, numbers: [33, u32::MAX, 1] };
        assert_eq!(set("a: k 2 33 4294967295 1"), Act::Set(plan));
        let upload = Upload { next: 1, repeats: 6, ..Upload::whole(address(255, 190), 2, 7) };
        let row = |upload| Act::Set(Setting::Upload { kind: 1, upload });
        assert_eq!(set("a: r 1 255 190 2 1 7 6"), row(upload));
        let first_and_last = Upload { first: 3, last: 65535, ..upload };
        assert_eq!(set("a: r 1 255 190 2 1 7 6 W 3 65535"), row(first_and_last));
        let partial = Upload { partial: true, first: 1, last: 1, ..upload };
        assert_eq!(set("a: r 1 255 190 2 1 7 6 P 1 1"), row(partial));
    }

    #[test]
    fn writes() {
        let write = |text: &str| match read_row(1, text).unwrap().act {
            Act::Set(Setting::Write { written, kind, at, bytes }) => (written, kind, at, bytes),
            other => panic!("{other:?}"),
        };
        assert_eq!(write("a: w 5663 01020304"), (target::WORDS, 0, 5_663, vec![1, 2, 3, 4]));
        assert_eq!(write("a: b 26878 0102"), (target::OLD, 0, 26_878, vec![1, 2]));
        let zeros = "00".repeat(32);
        assert_eq!(write(&format!("a: h 1 63 {zeros}")), (target::PLAN, 1, 63, vec![0; 32]));
        assert_eq!(write(&format!("a: g 2 31 {zeros}")), (target::OTHER_HALF, 2, 31, vec![0; 32]));
    }

    #[test]
    fn moves() {
        assert_eq!(call("a: x 26752 > 14"), Call::Move { old: 26_752, outcome: 14 });
        assert_eq!(call("a: e > 0 1"), Call::AsCopied([0, 1]));
    }

    /// Rows that cannot be read, and why.
    const UNREAD: &[(&str, &str)] = &[
        ("f", "no NAME:"),
        (": f", "no NAME:"),
        ("a: q", "no OP q without a WANTED"),
        ("a: m 44 01", "no OP m without a WANTED"),
        ("a: f > 1", "no OP f with a WANTED"),
        ("a:", "OP is missing"),
        ("a: f 1", "1: not `home`"),
        ("a: f home 1", "1: too much"),
        ("a: p 0 2", "BEGUN 2: above 1"),
        ("a: o 1 1 1", "1: too much"),
        ("a: t > 1", "KIND is missing"),
        ("a: t 256 > 1", "KIND 256: no number that fits"),
        ("a: t 1 >", "OUTCOME is missing"),
        ("a: t 1 > 0 51", "BYTES is missing"),
        ("a: t 1 > 0 51 00 00", "00: too much"),
        ("a: m 44 012 > 1", "012: not at most 300 bytes in hex"),
        ("a: m 44 0x > 1", "0x: not at most 300 bytes in hex"),
        ("a: u 0 0 16 3 > 0", "COUNT is 0"),
        ("a: u 0 1 16 > 0", "FRAME is missing"),
        ("a: u 0 1 16 3 0.1 > 0", "PARAM1 0.1: not exactly a float of 32 bits"),
        ("a: u 0 1 16 3 nan > 0", "PARAM1 nan: not exactly a float of 32 bits"),
        ("a: u 0 1 16 3 1e39 > 0", "PARAM1 1e39: not exactly a float of 32 bits"),
        ("a: u 0 1 16 3 0x7fc > 0", "PARAM1 0x7fc: not eight hex digits"),
        ("a: u 0 1 16 3 0 0 2147483648 > 0", "X 2147483648: no number that fits"),
        ("a: i 0 2 1 16 3 > 1", "LAST is below FIRST"),
        ("a: n 43 2 1 > 1", "LAST is below FIRST"),
        ("a: n 43 0 301 > 1", "LAST 301: above 300"),
        ("a: l 5665 54", "STORE 5665: above 5664"),
        ("a: k 0 1 1 2", "HALF 2: above 1"),
        ("a: r 0 1 1 4 0 0 0 3", "3: neither W nor P"),
        ("a: r 0 1 1 4 0 0 0 P 3", "LAST is missing"),
        ("a: r 0 1 1 4 0 0 0 W 3 65536", "LAST 65536: no number that fits"),
        ("a: w 5664 01020304", "5664: cut words or items, or past the end"),
        ("a: w 0 010203", "0: cut words or items, or past the end"),
        ("a: h 2 0 01020304", "0: cut words or items, or past the end"),
        ("a: g 3 0 -", "KIND 3: above 2"),
        ("a: b 26879 0102", "26879: cut words or items, or past the end"),
        ("a: x 26881 > 14", "OLD 26881: above 26880"),
        ("a: x 26752 > 1 2", "2: too much"),
        ("a: e > 1", "OLD is missing"),
        ("a: v 0x7fc00000 > 7 6 6", "RESULT is missing"),
        ("a: d >", "OUTCOME is missing"),
        ("a: d > 1 fly 0,", "counts is missing"),
        ("a: d > 1 fly 0, 1", "1: not `counts`"),
        ("a: d > 15 stuck, counts 0", "a refused call has no counts"),
        ("a: d > 1 stuck, counts 0 0 0 0 0 0 0 0 0 0 0 0 0 0 0 0", "0: too much"),
    ];

    #[test]
    fn an_error_names_its_line() {
        for (text, error) in UNREAD {
            let table = format!("# first\nfirst: t 0 > 1\n{text}\n");
            assert_eq!(read(&table).unwrap_err(), format!("line 3: {error}"), "{text}");
        }
    }

    #[test]
    fn cases_have_names_of_their_own() {
        let error = read("a: t 0 > 1\nb: f\nb: f\na: t 1 > 1\n").unwrap_err();
        assert_eq!(error, "line 4: line 1 has this case's name");
        assert_eq!(read("# nothing\na: f\n").unwrap_err(), "no case");
    }
}
