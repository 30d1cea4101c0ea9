//! Where items lie in the store, and the words that they are there.

use std::ops::Range;

use crate::fault::Fault;
use crate::items::DO_JUMP;
use crate::layout::{Address, Item};
use crate::limits::*;

/// Where frame and autocontinue stand in an item's last word; the command is lowest.
const FRAME_SHIFT: u32 = 16;
const AUTOCONTINUE_SHIFT: u32 = 24;

/// Params 1 to 4, x, y and z, then command, frame and autocontinue in one.
pub fn words_of(item: &Item) -> [u32; ITEM_WORDS] {
    let [param1, param2, param3, param4] = item.params;
    let last = u32::from(item.command)
        | u32::from(item.frame) << FRAME_SHIFT
        | u32::from(item.autocontinue) << AUTOCONTINUE_SHIFT;
    [param1, param2, param3, param4, item.x as u32, item.y as u32, item.z, last]
}

/// The item that the words are as number `seq` of a plan of this kind; its other fields are 0.
pub fn item_of(words: &[u32; ITEM_WORDS], kind: usize, seq: u16) -> Item {
    let [param1, param2, param3, param4, x, y, z, last] = *words;
    Item {
        params: [param1, param2, param3, param4],
        x: x as i32,
        y: y as i32,
        z,
        seq,
        command: last as u16,
        to: Address::default(),
        frame: (last >> FRAME_SHIFT) as u8,
        current: 0,
        autocontinue: (last >> AUTOCONTINUE_SHIFT) as u8,
        kind: kind as u8,
    }
}

/// The item places of one kind in one half of the store.
#[derive(Clone, Copy, Debug, PartialEq, Eq)]
pub struct Shelf {
    pub kind: usize,
    pub half: u8,
    /// A planted fault in places and words.
    fault: Fault,
}

impl Shelf {
    pub fn new(kind: usize, half: u8) -> Shelf {
        Shelf { kind, half, fault: Fault::None }
    }

    pub fn with(self, fault: Fault) -> Shelf {
        Shelf { fault, ..self }
    }

    /// The place of item `index`, counted over both halves.
    pub fn place(&self, index: u16) -> usize {
        let early = usize::from(self.kind == FENCE && self.fault.is(Fault::FencePlaceEarly));
        self.half as usize * HALF_PLACES + FIRST_PLACE[self.kind] + index as usize - early
    }

    /// The first word of item `index`.
    pub fn offset(&self, index: u16) -> usize {
        self.place(index) * ITEM_WORDS
    }

    /// Item `index`; words past the store are read as 0.
    pub fn item(&self, store: &[u32], index: u16) -> Item {
        let words = store.get(self.offset(index)..).and_then(<[u32]>::first_chunk);
        let words = words.unwrap_or(&[0; ITEM_WORDS]);
        let item = self.bent(item_of(words, self.kind, index));
        match self.fault {
            Fault::SeqIsPlace => Item { seq: FIRST_PLACE[self.kind] as u16 + index, ..item },
            Fault::KindNotPutBack => Item { kind: 0, ..item },
            _ => item,
        }
    }

    pub fn put(&self, store: &mut [u32], index: u16, item: &Item) {
        self.put_words(store, index, words_of(&self.bent(*item)));
    }

    /// Words past the store are lost.
    pub fn put_words(&self, store: &mut [u32], index: u16, words: [u32; ITEM_WORDS]) {
        let at = self.offset(index);
        if let Some(place) = store.get_mut(at..at + ITEM_WORDS) {
            place.copy_from_slice(&words);
        }
    }

    /// The item with the fields of its last word as a planted fault has them.
    fn bent(&self, item: Item) -> Item {
        if self.fault.is(Fault::FrameSwapped) {
            return Item { frame: item.autocontinue, autocontinue: item.frame, ..item };
        }
        item
    }

    /// How many of some items are jumps, valid or not.
    pub fn jumps(&self, store: &[u32], items: Range<u16>) -> usize {
        let commands = items.map(|index| self.item(store, index).command);
        commands.filter(|command| *command == DO_JUMP).count()
    }
}

#[cfg(test)]
mod tests {
    use super::*;

    #[test]
    fn places() {
        assert_eq!((STORE_WORDS, OLD_STORE_BYTES), (5632, 26752));
        assert_eq!(Shelf::new(FLIGHT, 0).place(0), 0);
        assert_eq!(Shelf::new(FENCE, 0).place(0), 256);
        assert_eq!(Shelf::new(RALLY, 0).place(31), 351);
        assert_eq!(Shelf::new(FLIGHT, 1).place(0), 352);
        assert_eq!(Shelf::new(RALLY, 1).offset(31), STORE_WORDS - ITEM_WORDS);
    }

    #[test]
    fn words() {
        let sent = Item {
            params: [0x7F80_0001, 2, 3, 4],
            x: -5,
            y: i32::MIN,
            z: 7,
            seq: 8,
            command: 0x1234,
            to: Address { system: 9, component: 10 },
            frame: 0x56,
            current: 11,
            autocontinue: 0xFF,
            kind: 1,
        };
        let words = [0x7F80_0001, 2, 3, 4, 0xFFFF_FFFB, 0x8000_0000, 7, 0xFF56_1234];
        assert_eq!(words_of(&sent), words);
        let stored = Item { to: Address::default(), current: 0, ..sent };
        assert_eq!(item_of(&words, FENCE, 8), stored);
        assert_eq!(item_of(&words, RALLY, 31), Item { seq: 31, kind: 2, ..stored });
    }

    #[test]
    fn an_item_has_its_own_words() {
        let mut store = vec![0xEEEE_EEEE; STORE_WORDS];
        let item = Item { command: 5100, seq: 31, kind: 2, ..Item::default() };
        let shelf = Shelf::new(RALLY, 1);
        shelf.put(&mut store, 31, &item);
        assert_eq!(shelf.item(&store, 31), item);
        assert_eq!(store[STORE_WORDS - ITEM_WORDS..], words_of(&item));
        assert!(store[..STORE_WORDS - ITEM_WORDS].iter().all(|word| *word == 0xEEEE_EEEE));
    }
}
