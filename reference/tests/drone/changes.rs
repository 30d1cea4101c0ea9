//! Partial uploads that are sent to the drone.

use crate::drone::*;
use reference::layout::{Address, Item, Message};

impl Drone {
    pub fn change(&mut self, sender: Address, kind: u8, start: i16, end: i16) -> Option<Message> {
        self.send(sender, Message::WritePartialList { start, end, to: OWN, kind })
    }

    /// Changes items from `first` on, and gives the last reply.
    pub fn change_all(&mut self, kind: u8, first: u16, items: &[Item]) -> Option<Message> {
        let end = first as i16 + items.len() as i16 - 1;
        let mut reply = self.change(STATION, kind, first as i16, end);
        for (seq, item) in (first..).zip(items) {
            assert_eq!(reply, request(STATION, seq, kind));
            reply = self.item(STATION, Item { seq, kind, ..*item });
        }
        reply
    }
}
