//! Moves from the old store: plans of all forms in it, stores at the edges of
//! their lengths, and what is seen afterwards.

use super::{values, Generator};
use crate::layout::Item;
use crate::limits::*;
use crate::script::{field, record, Record, OLD_ARRAY};
use crate::store::Shelf;

impl Generator {
    /// Plans and uploads that stand in the old store are moved and looked at.
    pub(super) fn move_plans(&mut self) {
        for kind in 0..KINDS {
            if self.random.chance(3, 4) {
                self.old_plan(kind);
            }
            if self.random.chance(1, 3) {
                let upload = self.good_upload(kind);
                self.poke_upload(kind, Some(upload));
            }
        }
        if self.random.chance(1, 2) {
            self.old_progress();
        }
        self.ensure_range();
        self.snap();
        self.of_old_store(record::SNAP);
        if self.random.chance(1, 3) {
            self.short_move();
            self.compare();
            self.maybe_dump(1, 2);
        }
        if self.random.chance(1, 4) {
            self.move_with_bad_upload();
        }
        let (old, store) = (self.old_length(), self.store_length());
        self.emit_move(old, store);
        self.compare();
        self.of_old_store(record::CMP);
        self.after_move();
    }

    /// A plan in the old store, sometimes of bytes that were there.
    fn old_plan(&mut self, kind: usize) {
        let size = PLAN_SIZE[kind];
        let small = self.random.within(0, 6) as u16;
        let length = self.random.weighted(&[(24, small), (1, size), (1, size - 1)]);
        let half = self.random.below(2) as u8;
        if self.random.chance(5, 6) {
            let items = values::plan(&mut self.random, kind, length, 2);
            let bytes: Vec<u8> =
                items.into_iter().flat_map(|item| self.old_item(item, length)).collect();
            self.write_old(Shelf::new(kind, half).place(0) * ITEM_BYTES, &bytes);
        }
        self.poke_half(kind, half);
        self.poke_length(kind, length);
        if self.random.chance(1, 3) {
            let number = self.random.pick(&[0, 1, 7, u32::MAX]);
            self.poke(field::NUMBER, kind, number);
        }
    }

    /// An item as a call put it there, or as a host did: with other fields than
    /// words keep, breaking a rule, or any bytes.
    fn old_item(&mut self, item: Item, count: u16) -> [u8; ITEM_BYTES] {
        let item = Item { current: 0, ..item };
        let host_wrote = match self.random.below(10) {
            0 => return std::array::from_fn(|_| self.random.byte()),
            1 => values::edge_item(&mut self.random, usize::from(item.kind), item.seq, count),
            2 => Item { seq: self.random.below(8) as u16, ..item },
            3 => Item { kind: self.random.byte(), to: self.any_station(), current: 1, ..item },
            4 => {
                let fields = values::last_word_fields(&mut self.random, usize::from(item.kind));
                let Item { command, frame, autocontinue, .. } = fields;
                Item { command, frame, autocontinue, ..item }
            }
            _ => item,
        };
        host_wrote.to_bytes()
    }

    /// Current item, begun and jump counts, which the move keeps.
    fn old_progress(&mut self) {
        self.poke_progress();
        for _ in 0..self.random.within(1, 3) {
            let jump = self.random.below(MAX_JUMPS);
            let runs = self.random.pick(&[0, 1, 2, 32767]);
            self.poke(field::JUMP_COUNT, jump, runs);
        }
    }

    fn emit_move(&mut self, old: u32, store: u32) {
        self.emit(Record::moving(old, store));
    }

    /// A length of the old store that suffices.
    fn old_length(&mut self) -> u32 {
        let longer = self.random.within(OLD_STORE_BYTES, OLD_ARRAY);
        self.random.weighted(&[(8, OLD_STORE_BYTES), (1, OLD_ARRAY), (1, longer)]) as u32
    }

    /// A move with a store that is too short, or both.
    pub(super) fn short_move(&mut self) {
        let any = self.random.below(OLD_STORE_BYTES);
        let short = [(1, 0), (5, OLD_STORE_BYTES - 1), (1, STORE_WORDS), (1, any)];
        let old_short = self.random.weighted(&short) as u32;
        let (old, store) = (self.old_length(), self.store_length());
        let store_short = self.short_store();
        match self.random.below(5) {
            0 => self.emit_move(old_short, store_short),
            1 | 2 => self.emit_move(old, store_short),
            _ => self.emit_move(old_short, store),
        }
    }

    /// A move in a state out of its range, sometimes with a store too short.
    pub(super) fn move_in_bad_state(&mut self) {
        if self.random.chance(1, 3) {
            return self.short_move();
        }
        let (old, store) = (self.old_length(), self.store_length());
        self.emit_move(old, store);
    }

    /// An upload out of its range, poked back after the move that it hinders.
    fn move_with_bad_upload(&mut self) {
        let kind = self.any_kind();
        let before = self.upload(kind);
        let bad = self.bad_upload(kind);
        self.poke_upload(kind, Some(bad));
        self.move_in_bad_state();
        self.poke_upload(kind, before);
    }

    /// The plans as they were moved, that no upload runs, and the words beside.
    fn after_move(&mut self) {
        self.maybe_dump(2, 3);
        for (kind, size) in PLAN_SIZE.into_iter().enumerate() {
            match self.random.below(6) {
                0 => self.download(kind),
                1 => self.any_timer(kind),
                2 => {
                    let station = self.uploader(kind);
                    let number = self.random.below(4) as u16;
                    let item = values::valid_item(&mut self.random, kind, number, 4);
                    self.send_item(station, item);
                }
                3 => {
                    let more = self.random.within(1, 3) as u16;
                    self.poke_length(kind, size.min(self.length(kind) + more));
                    self.maybe_dump(1, 1);
                }
                _ => self.any_request(kind),
            }
        }
        self.search_some(5);
    }
}
