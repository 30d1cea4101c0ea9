//! What a host writes into the stores: items by their words or their numbers,
//! single words and rows of words, and bytes of the old store.

use super::{values, Generator};
use crate::layout::Item;
use crate::limits::*;
use crate::script::*;
use crate::store::{words_of, Shelf};

impl Generator {
    fn write(&mut self, written: u8, kind: usize, at: usize, payload: Vec<u8>) {
        self.emit(Record::host_write(written, kind as u8, at as u32, payload));
    }

    fn write_words(&mut self, at: usize, words: &[u32]) {
        self.write(target::WORDS, 0, at, word_bytes(words));
    }

    /// Writes items from number `index` on, told by the first word or by the number.
    pub(super) fn write_items(&mut self, shelf: Shelf, index: u16, items: &[Item]) {
        const MOST: usize = MAX_PAYLOAD / WRITTEN_ITEM;
        let in_plan_half = self.state().plan_shelf(shelf.kind) == shelf;
        let by_number = if in_plan_half { target::PLAN } else { target::OTHER_HALF };
        for (first, items) in (index..).step_by(MOST).zip(items.chunks(MOST)) {
            let words: Vec<u32> = items.iter().flat_map(words_of).collect();
            match self.random.chance(1, 2) {
                true => self.write(by_number, shelf.kind, usize::from(first), word_bytes(&words)),
                false => self.write_words(shelf.offset(first), &words),
            }
        }
    }

    /// Writes bytes of the old store from `at` on.
    pub(super) fn write_old(&mut self, at: usize, bytes: &[u8]) {
        for (at, bytes) in (at..).step_by(MAX_PAYLOAD).zip(bytes.chunks(MAX_PAYLOAD)) {
            self.write(target::OLD, 0, at, bytes.to_vec());
        }
    }

    /// A host writes into the plan; the flight plan is then searched.
    pub(super) fn host_writes_plan(&mut self) {
        let kind = self.random.weighted(&[(6, FLIGHT), (1, FENCE), (1, RALLY)]);
        if self.length(kind) == 0 {
            let items = values::plan(&mut self.random, kind, 6, 2);
            self.upload_plan(kind, items);
        }
        let length = self.length(kind);
        let shelf = self.state().plan_shelf(kind);
        for _ in 0..self.random.within(1, 3) {
            if length > 0 {
                let near = usize::from(self.state().current).min(usize::from(length) - 1);
                let any = self.random.below(usize::from(length));
                let index = self.random.pick(&[near, any]) as u16;
                self.write_over(shelf, index, length);
                let station = self.any_station();
                self.send_request_int(station, index, kind as u8);
            }
        }
        if self.random.chance(1, 4) {
            self.write_many_jumps(shelf, length);
        }
        for _ in 0..3 {
            self.any_set_current(FLIGHT);
            self.done();
        }
        self.search_some(4);
        self.any_request(kind);
    }

    /// Writes over an item: whole, one field of it, its last word, or some words.
    pub(super) fn write_over(&mut self, shelf: Shelf, index: u16, count: u16) {
        let last = shelf.offset(index) + ITEM_WORDS - 1;
        let item = match self.random.below(6) {
            0 => values::edge_item(&mut self.random, shelf.kind, index, count),
            1 => values::valid_item(&mut self.random, shelf.kind, index, count),
            2 => {
                let mut item = shelf.item(&self.mirror.stores.words, index);
                values::spoil(&mut self.random, &mut item, count);
                item
            }
            3 | 4 => {
                let fields = values::last_word_fields(&mut self.random, shelf.kind);
                return self.write_words(last, &words_of(&fields)[ITEM_WORDS - 1..]);
            }
            _ => return self.write_some_words(shelf.offset(index)),
        };
        self.write_items(shelf, index, &[item]);
    }

    /// Words of any value in an item's place, perhaps past its end.
    fn write_some_words(&mut self, place: usize) {
        let at = place + self.random.below(ITEM_WORDS);
        let words: Vec<u32> = (0..self.random.within(1, 3)).map(|_| self.random.word()).collect();
        self.write_words(at, &words);
    }

    /// Writes jumps over the front of the plan, more than it may have.
    pub(super) fn write_many_jumps(&mut self, shelf: Shelf, length: u16) {
        if shelf.kind != FLIGHT || length < 3 {
            return;
        }
        let jumps = length.min(self.random.within(14, 18) as u16);
        let jump = |index| {
            let target = if index == length - 1 { 0 } else { length - 1 };
            let repeat = self.random.pick(&[0, 0, 0x3F80_0000]);
            values::jump_to(&mut self.random, index, usize::from(target), repeat)
        };
        let items: Vec<Item> = (0..jumps).map(jump).collect();
        self.write_items(shelf, 0, &items);
    }

    /// A host writes into the items taken by a running upload.
    pub(super) fn host_writes_upload(&mut self) {
        let kind = self.random.weighted(&[(3, FLIGHT), (4, FENCE), (1, RALLY)]);
        if self.upload(kind).is_none() {
            let count = self.random.within(3, 9) as u16;
            let items = values::plan(&mut self.random, kind, count, 1);
            self.start(kind, items);
        }
        for _ in 0..self.random.within(1, 5) {
            self.send_expected(kind);
        }
        for _ in 0..self.random.within(1, 2) {
            let Some(upload) = self.upload(kind) else { return };
            let taken = usize::from(upload.next - upload.first);
            if taken > 0 {
                let index = upload.first + self.random.below(taken) as u16;
                let shelf = self.state().upload_shelf(kind);
                self.write_over(shelf, index, upload.count);
            }
        }
        self.maybe_dump(1, 2);
        self.go_on(kind, 10, false);
    }

    /// Writes at the ends of what can be written, some of nothing.
    pub(super) fn write_ends(&mut self) {
        let kind = self.any_kind();
        let size = usize::from(PLAN_SIZE[kind]);
        let half = self.random.pick(&[target::PLAN, target::OTHER_HALF]);
        let words: Vec<u32> = (0..ITEM_WORDS).map(|_| self.random.word()).collect();
        self.snap();
        self.of_old_store(record::SNAP);
        match self.random.below(8) {
            0 => self.write_words(STORE_ARRAY - 1, &words[..1]),
            1 => self.write_words(STORE_ARRAY, &[]),
            2 => self.write_words(STORE_WORDS - 2, &words[..4]),
            3 => self.write_words(STORE_WORDS, &[0x7777_7777; STORE_ARRAY - STORE_WORDS]),
            4 => self.write(half, kind, size - 1, word_bytes(&words)),
            5 => self.write(half, kind, size, vec![]),
            6 => self.write(target::OLD, 0, OLD_ARRAY - 1, vec![words[0] as u8]),
            _ => self.write(target::OLD, 0, OLD_ARRAY, vec![]),
        }
        self.compare();
        self.of_old_store(record::CMP);
        let station = self.any_station();
        self.send_request_int(station, PLAN_SIZE[kind] - 1, kind as u8);
    }
}
