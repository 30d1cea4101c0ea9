//! Ends of scripts: a record 0, nothing, or what cannot be played.

use super::Generator;
use crate::layout::{ITEM_INT, REQUEST_INT};
use crate::limits::*;
use crate::script::*;

impl Generator {
    /// Bytes that end a script.
    pub(super) fn ending(&mut self) -> Vec<u8> {
        let (end, dump) = (Record::of(record::END), Record::of(record::DUMP));
        match self.random.below(24) {
            0..=11 => self.bad_ending(dump),
            12 => script_bytes(&[end, dump]),
            13 => vec![],
            14..=17 => self.cut_record(),
            _ => script_bytes(&[end]),
        }
    }

    /// A record that cannot be played and one that could, or the first alone, cut in its payload.
    fn bad_ending(&mut self, dump: Record) -> Vec<u8> {
        let bad = match self.random.below(3) {
            0 => self.bad_write(),
            _ => self.bad_record(),
        };
        if self.random.chance(1, 4) {
            let mut bytes = script_bytes(&[bad]);
            bytes.truncate(self.random.within(HEADER_BYTES, bytes.len()));
            return bytes;
        }
        script_bytes(&[bad, dump])
    }

    /// A record of a type, or with a number, that is not known.
    fn bad_record(&mut self) -> Record {
        let of = Record::of;
        let past_store = STORE_ARRAY as u32 + 1;
        let any = self.random.within(0, 9) as u8;
        match self.random.below(16) {
            0 => of(self.random.within(10, 17) as u8),
            1 => of(self.random.within(19, 31) as u8),
            2 => of(self.random.within(32, 255) as u8),
            3 => Record { payload: vec![0; MAX_PAYLOAD + 1], ..of(record::MESSAGE) },
            4 => Record { store: past_store, ..of(record::DONE) },
            5 => Record { store: past_store, ..of(any.max(1)) },
            6 => Record { store: OLD_STORE_BYTES as u32, ..of(record::DONE) },
            7 => Record { reply: REPLY_ARRAY as u32 + 1, ..of(record::TIMER) },
            8 => Record::poke(field::LAST + 1, 0, 0),
            9 => Record::poke(self.random.pick(&[field::NUMBER, field::PARTIAL]), 3, 0),
            10 => Record::poke(field::JUMP_COUNT, MAX_JUMPS as u8, 0),
            11 => self.last_fresh(),
            12 => Record::about(record::SNAP, self.random.pick(&[2, 3, 255])),
            13 => Record::about(record::CMP, self.random.pick(&[2, 3, 255])),
            14 => Record::moving(OLD_ARRAY as u32 + 1, 0),
            _ => Record::moving(0, past_store),
        }
    }

    /// A fresh start with a reserved setting; in lists without home, one with home.
    fn last_fresh(&mut self) -> Record {
        let setting = if self.of_home { self.random.pick(&[2, 3, 128, 255]) } else { HOME };
        Record::about(record::FRESH, setting)
    }

    /// A WRITE of no known target, of no whole words or items, or past the end.
    fn bad_write(&mut self) -> Record {
        let kind = self.random.below(KINDS);
        let size = usize::from(PLAN_SIZE[kind]);
        let items = self.random.pick(&[target::PLAN, target::OTHER_HALF]);
        let strange = self.random.pick(&[3, 4, 255]);
        let (written, kind, at, len) = match self.random.below(14) {
            0 => (target::WORDS, kind, 0, self.random.pick(&[1, 2, 3, 5, 31])),
            1 => (target::WORDS, kind, STORE_ARRAY, WORD_BYTES),
            2 => (target::WORDS, kind, STORE_ARRAY - 1, 2 * WORD_BYTES),
            3 => (target::WORDS, kind, STORE_ARRAY + 1, 0),
            4 => (target::WORDS, kind, u32::MAX as usize, WORD_BYTES),
            5 => (items, kind, 0, self.random.pick(&[1, 4, 28, 31, 33, 36, 38])),
            6 => (items, kind, size, WRITTEN_ITEM),
            7 => (items, kind, size - 1, 2 * WRITTEN_ITEM),
            8 => (items, kind, size + 1, 0),
            9 => (items, strange, 0, self.random.pick(&[0, WRITTEN_ITEM])),
            10 => (target::OLD, kind, OLD_ARRAY, 1),
            11 => (target::OLD, kind, OLD_ARRAY - 1, 2),
            12 => (target::OLD, kind, u32::MAX as usize, 1),
            _ => (self.random.pick(&[4, 5, 255]), kind, 0, WRITTEN_ITEM),
        };
        Record::host_write(written, kind as u8, at as u32, vec![1; len])
    }

    /// A record that the end of input cuts, in its header or its payload.
    fn cut_record(&mut self) -> Vec<u8> {
        let payload = vec![1; self.random.within(1, 60)];
        let id = self.random.pick(&[ITEM_INT, REQUEST_INT]);
        let sender = self.any_station();
        let mut bytes = script_bytes(&[self.message(sender, id, payload)]);
        bytes.truncate(self.random.within(1, bytes.len() - 1));
        bytes
    }
}
