//! Call scripts: records, their bytes, and which of them can be played.

use std::io::{self, Read};

use crate::limits::*;
use crate::state::Upload;

pub const HEADER_BYTES: usize = 24;
/// Longest payload of a record.
pub const MAX_PAYLOAD: usize = 300;
/// Words of the player's store array; bytes of its old store and reply arrays.
pub const STORE_ARRAY: usize = 5_664;
pub const OLD_ARRAY: usize = 26_880;
pub const REPLY_ARRAY: usize = 64;
/// Bytes of a word and of an item in a WRITE.
pub const WORD_BYTES: usize = 4;
pub const WRITTEN_ITEM: usize = ITEM_WORDS * WORD_BYTES;

/// Record types.
pub mod record {
    pub const END: u8 = 0;
    pub const MESSAGE: u8 = 1;
    pub const TIMER: u8 = 2;
    pub const DONE: u8 = 3;
    pub const DUMP: u8 = 4;
    pub const FRESH: u8 = 5;
    pub const SNAP: u8 = 6;
    pub const CMP: u8 = 7;
    pub const POKE: u8 = 8;
    pub const WRITE: u8 = 9;
    pub const MOVE: u8 = 18;
}

/// What a WRITE is about, its b4.
pub mod target {
    /// The store, from word a on.
    pub const WORDS: u8 = 0;
    /// Items of kind b0 in the half of its plan, from item a on.
    pub const PLAN: u8 = 1;
    /// The same in the other half.
    pub const OTHER_HALF: u8 = 2;
    /// The old store, from byte a on.
    pub const OLD: u8 = 3;
}

/// What SNAP and CMP are about, their b4.
pub mod array {
    pub const STORE: u8 = 0;
    pub const OLD: u8 = 1;
}

/// Fields of a POKE.
pub mod field {
    pub const LENGTH: u8 = 0;
    pub const NUMBER: u8 = 1;
    pub const HALF: u8 = 2;
    pub const RUNNING: u8 = 3;
    pub const SYSTEM: u8 = 4;
    pub const COMPONENT: u8 = 5;
    pub const COUNT: u8 = 6;
    pub const NEXT: u8 = 7;
    pub const START: u8 = 8;
    pub const REPEATS: u8 = 9;
    pub const CURRENT: u8 = 10;
    pub const BEGUN: u8 = 11;
    pub const JUMP_COUNT: u8 = 12;
    pub const PARTIAL: u8 = 13;
    pub const FIRST: u8 = 14;
    pub const LAST: u8 = 15;
}

/// The bit of a FRESH's b4 that is the setting "home in item 0".
pub const HOME: u8 = 1;
/// The bit of a DUMP's b4 with which a plan's half is not printed.
pub const WITHOUT_HALF: u8 = 1;

/// One record; `b` holds b0 to b4.
#[derive(Clone, Debug, Default, PartialEq, Eq)]
pub struct Record {
    pub kind: u8,
    pub b: [u8; 5],
    pub a: u32,
    pub clock: u32,
    pub store: u32,
    pub reply: u32,
    pub payload: Vec<u8>,
}

impl Record {
    pub fn of(kind: u8) -> Record {
        Record { kind, ..Record::default() }
    }

    pub fn poke(poked: u8, index: u8, value: u32) -> Record {
        Record { b: [index, 0, 0, 0, poked], a: value, ..Record::of(record::POKE) }
    }

    /// Pokes of one field after the other, with the same index.
    pub fn pokes(first: u8, index: u8, values: &[u32]) -> Vec<Record> {
        (first..).zip(values).map(|(poked, value)| Record::poke(poked, index, *value)).collect()
    }

    /// Pokes of all numbers of a running upload, or of none.
    pub fn upload_pokes(kind: u8, upload: Option<Upload>) -> Vec<Record> {
        let running = u32::from(upload.is_some());
        let Upload { station, count, next, start, repeats, partial, first, last } =
            upload.unwrap_or_default();
        let [system, component, repeats] =
            [station.system, station.component, repeats].map(u32::from);
        let [count, next, first, last] = [count, next, first, last].map(u32::from);
        let values = [running, system, component, count, next, start, repeats];
        let mut pokes = Record::pokes(field::RUNNING, kind, &values);
        pokes.extend(Record::pokes(field::PARTIAL, kind, &[u32::from(partial), first, last]));
        pokes
    }

    pub fn host_write(written: u8, kind: u8, at: u32, payload: Vec<u8>) -> Record {
        Record { b: [kind, 0, 0, 0, written], a: at, payload, ..Record::of(record::WRITE) }
    }

    /// A fresh start over stores full of a byte, with or without home in item 0.
    pub fn fresh(fill: u8, home: bool) -> Record {
        let setting = if home { HOME } else { 0 };
        Record { b: [fill, 0, 0, 0, setting], ..Record::of(record::FRESH) }
    }

    /// A SNAP or CMP of the store or the old one, or a DUMP with or without halves.
    pub fn about(kind: u8, b4: u8) -> Record {
        Record { b: [0, 0, 0, 0, b4], ..Record::of(kind) }
    }

    /// The move out of so many bytes into so many words.
    pub fn moving(old: u32, store: u32) -> Record {
        Record { a: old, store, ..Record::of(record::MOVE) }
    }

    /// True for message, timer and done calls.
    pub fn is_call(&self) -> bool {
        matches!(self.kind, record::MESSAGE | record::TIMER | record::DONE)
    }

    pub fn write(&self, out: &mut Vec<u8>) {
        out.push(self.kind);
        out.extend(self.b);
        out.extend((self.payload.len() as u16).to_le_bytes());
        for number in [self.a, self.clock, self.store, self.reply] {
            out.extend(number.to_le_bytes());
        }
        out.extend(&self.payload);
    }

    fn from_header(header: &[u8; HEADER_BYTES]) -> (Record, usize) {
        let word = |at: usize| u32::from_le_bytes(header[at..at + 4].try_into().expect("4 bytes"));
        let len = usize::from(u16::from_le_bytes([header[6], header[7]]));
        let record = Record {
            kind: header[0],
            b: header[1..6].try_into().expect("5 bytes"),
            a: word(8),
            clock: word(12),
            store: word(16),
            reply: word(20),
            payload: Vec::new(),
        };
        (record, len)
    }

    /// True if the header's type, lengths, field, index and places are as they may be.
    fn header_fits(&self, len: usize) -> bool {
        let [b0, .., b4] = self.b;
        let known = match self.kind {
            record::MESSAGE..=record::DUMP => true,
            record::FRESH => b4 & !HOME == 0,
            record::SNAP | record::CMP => matches!(b4, array::STORE | array::OLD),
            record::POKE => poke_fits(b4, b0),
            record::WRITE => write_fits(b4, b0, self.a as usize, len),
            record::MOVE => self.a as usize <= OLD_ARRAY,
            _ => false,
        };
        known
            && len <= MAX_PAYLOAD
            && self.store as usize <= STORE_ARRAY
            && self.reply as usize <= REPLY_ARRAY
    }
}

fn poke_fits(poked: u8, index: u8) -> bool {
    let indices = match poked {
        field::LENGTH..=field::REPEATS | field::PARTIAL..=field::LAST => KINDS,
        field::CURRENT | field::BEGUN => 1,
        field::JUMP_COUNT => MAX_JUMPS,
        _ => 0,
    };
    usize::from(index) < indices
}

/// True if whole words, items or bytes are written, none past the end.
pub fn write_fits(written: u8, kind: u8, at: usize, len: usize) -> bool {
    let (unit, end) = match written {
        target::WORDS => (WORD_BYTES, STORE_ARRAY),
        target::PLAN | target::OTHER_HALF => match PLAN_SIZE.get(usize::from(kind)) {
            Some(size) => (WRITTEN_ITEM, usize::from(*size)),
            None => return false,
        },
        target::OLD => (1, OLD_ARRAY),
        _ => return false,
    };
    len.is_multiple_of(unit) && at + len / unit <= end
}

/// The bytes of a row of records.
pub fn script_bytes<'a>(records: impl IntoIterator<Item = &'a Record>) -> Vec<u8> {
    let mut bytes = Vec::new();
    records.into_iter().for_each(|record| record.write(&mut bytes));
    bytes
}

/// The bytes of words, lowest first.
pub fn word_bytes(words: &[u32]) -> Vec<u8> {
    words.iter().flat_map(|word| word.to_le_bytes()).collect()
}

/// What stands next in a script.
#[derive(Debug, PartialEq, Eq)]
pub enum Next {
    Record(Record),
    End,
    /// The input ends inside a record.
    Cut,
    /// A record that cannot be played, with its type.
    Bad(u8),
}

/// Reads the next record of a script.
pub fn read_record(input: &mut impl Read) -> io::Result<Next> {
    read_if(input, Record::header_fits)
}

/// Reads the next record of a script, if its header and payload's length pass a test.
pub fn read_if(input: &mut impl Read, fits: fn(&Record, usize) -> bool) -> io::Result<Next> {
    let mut header = [0; HEADER_BYTES];
    match read_up_to(input, &mut header)? {
        0 => return Ok(Next::End),
        HEADER_BYTES => {}
        _ => return Ok(Next::Cut),
    }
    let (mut record, len) = Record::from_header(&header);
    if record.kind == record::END {
        return Ok(Next::End);
    }
    if !fits(&record, len) {
        return Ok(Next::Bad(record.kind));
    }
    record.payload = vec![0; len];
    if read_up_to(input, &mut record.payload)? < len {
        return Ok(Next::Cut);
    }
    Ok(Next::Record(record))
}

/// Fills the buffer as far as the input goes.
fn read_up_to(input: &mut impl Read, buffer: &mut [u8]) -> io::Result<usize> {
    let mut filled = 0;
    while filled < buffer.len() {
        match input.read(&mut buffer[filled..]) {
            Ok(0) => break,
            Ok(read) => filled += read,
            Err(error) if error.kind() == io::ErrorKind::Interrupted => {}
            Err(error) => return Err(error),
        }
    }
    Ok(filled)
}

#[cfg(test)]
mod tests {
    use super::*;

    fn next(record: &Record) -> Next {
        read_record(&mut &script_bytes([record])[..]).unwrap()
    }

    #[test]
    fn records_read_back() {
        let record = Record {
            kind: record::MESSAGE,
            b: [1, 2, 3, 4, 5],
            a: 44,
            clock: 4_294_967_295,
            store: 5_632,
            reply: 54,
            payload: vec![9, 8, 7],
        };
        assert_eq!(script_bytes([&record]).len(), HEADER_BYTES + 3);
        assert_eq!(next(&record), Next::Record(record));
    }

    /// A WRITE of so many bytes.
    fn write(written: u8, kind: u8, at: u32, len: usize) -> Record {
        Record::host_write(written, kind, at, vec![0; len])
    }

    #[test]
    fn records_that_cannot_be_played() {
        let of = Record::of;
        let bad = [
            of(10),
            of(17),
            of(19),
            of(255),
            Record { payload: vec![0; 301], ..of(record::MESSAGE) },
            Record { store: 5_665, ..of(record::DONE) },
            Record { store: 5_665, ..of(record::POKE) },
            Record { reply: 65, ..of(record::TIMER) },
            Record::about(record::FRESH, 2),
            Record::about(record::FRESH, 3),
            Record::about(record::FRESH, 128),
            Record::about(record::SNAP, 2),
            Record::about(record::CMP, 2),
            Record::poke(16, 0, 0),
            Record::poke(10, 1, 0),
            Record::poke(15, 3, 0),
            Record::poke(12, 15, 0),
            Record::moving(26_881, 0),
            Record::moving(0, 5_665),
            write(target::WORDS, 0, 0, 3),
            write(target::WORDS, 0, 5_664, 4),
            write(target::WORDS, 0, 5_663, 8),
            write(target::WORDS, 0, 5_665, 0),
            write(target::WORDS, 0, u32::MAX, 4),
            write(target::PLAN, 0, 0, 36),
            write(target::PLAN, 0, 256, 32),
            write(target::OTHER_HALF, 1, 63, 64),
            write(target::OTHER_HALF, 2, 33, 0),
            write(target::PLAN, 3, 0, 0),
            write(target::OLD, 0, 26_880, 1),
            write(target::OLD, 0, u32::MAX, 1),
            write(4, 0, 0, 4),
            write(255, 0, 0, 4),
        ];
        for record in bad {
            assert_eq!(next(&record), Next::Bad(record.kind), "{record:?}");
        }
    }

    #[test]
    fn records_that_just_can_be_played() {
        let good = [
            Record { store: 5_664, reply: 64, ..Record::of(record::DONE) },
            Record::fresh(0xFF, true),
            Record::about(record::SNAP, 1),
            Record::about(record::CMP, 1),
            Record::about(record::DUMP, WITHOUT_HALF),
            Record::poke(13, 2, 1),
            Record::poke(15, 2, 65_535),
            Record::moving(26_880, 5_664),
            write(target::WORDS, 9, 5_663, 4),
            write(target::WORDS, 0, 5_664, 0),
            write(target::PLAN, 0, 247, 288),
            write(target::OTHER_HALF, 1, 63, 32),
            write(target::OTHER_HALF, 2, 32, 0),
            write(target::OLD, 9, 26_880 - 3, 3),
        ];
        for record in good {
            assert_eq!(next(&record), Next::Record(record));
        }
    }

    #[test]
    fn a_header_is_judged_before_its_payload_is_there() {
        let mut bytes = script_bytes([&write(target::WORDS, 0, 0, 5)]);
        assert_eq!(read_record(&mut &bytes[..25]).unwrap(), Next::Bad(record::WRITE));
        bytes[6] = 4;
        assert_eq!(read_record(&mut &bytes[..25]).unwrap(), Next::Cut);
        assert_eq!(read_record(&mut &bytes[..23]).unwrap(), Next::Cut);
    }
}
