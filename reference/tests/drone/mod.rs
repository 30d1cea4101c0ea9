//! A drone for tests: the service with its store and reply buffer, and what is
//! sent to it.

use reference::fault::Fault;
use reference::layout::{address, Address, Item, Message};
use reference::limits::*;
use reference::search::Command;
use reference::service::{MessageCall, Returned, Service};
use reference::state::Upload;

pub const OWN: Address = address(1, 1);
pub const STATION: Address = address(255, 190);
pub const OTHER: Address = address(254, 190);

/// A service with store and reply buffer of the least lengths.
pub struct Drone {
    pub service: Service,
    pub store: Vec<u32>,
    pub reply: Vec<u8>,
    pub clock: u32,
}

impl Drone {
    pub fn fresh() -> Drone {
        Drone::with_setting(false)
    }

    /// A fresh start with or without home in item 0.
    pub fn with_setting(home: bool) -> Drone {
        Drone {
            service: Service::fresh(home, Fault::None),
            store: vec![0xEEEE_EEEE; STORE_WORDS],
            reply: vec![0xA5; REPLY_BYTES],
            clock: 0,
        }
    }

    pub fn raw(&mut self, sender: Address, id: u32, payload: &[u8]) -> Returned {
        let call = MessageCall { own: OWN, sender, id, payload, clock: self.clock };
        self.service.message(&call, &mut self.store, &mut self.reply)
    }

    pub fn send(&mut self, sender: Address, message: Message) -> Option<Message> {
        let payload = message.write();
        let returned = self.raw(sender, message.id(), payload.trimmed());
        self.reply_of(returned)
    }

    pub fn tick(&mut self, kind: u8) -> Option<Message> {
        let returned = self.service.timer(kind, self.clock, &self.store, &mut self.reply);
        self.reply_of(returned)
    }

    fn reply_of(&self, returned: Returned) -> Option<Message> {
        match returned.outcome {
            0 => Message::read(returned.id, &self.reply[..returned.len]),
            1 => None,
            refusal => panic!("refused: {refusal}"),
        }
    }

    pub fn count(&mut self, sender: Address, kind: u8, count: u16) -> Option<Message> {
        self.send(sender, Message::Count { count, to: OWN, kind, number: 7 })
    }

    pub fn item(&mut self, sender: Address, item: Item) -> Option<Message> {
        self.send(sender, Message::ItemInt(Item { to: OWN, ..item }))
    }

    /// Uploads a plan whole and gives the last reply.
    pub fn upload(&mut self, kind: u8, items: &[Item]) -> Option<Message> {
        let mut reply = self.count(STATION, kind, items.len() as u16);
        for (seq, item) in items.iter().enumerate() {
            reply = self.item(STATION, Item { seq: seq as u16, kind, ..*item });
        }
        reply
    }

    pub fn running(&self, kind: u8) -> Option<Upload> {
        self.service.state.plans[usize::from(kind)].upload
    }

    pub fn length(&self, kind: u8) -> u16 {
        self.service.state.plans[usize::from(kind)].length
    }

    pub fn done(&mut self) -> Command {
        self.service.done(&self.store).1
    }
}

pub fn nav(command: u16) -> Item {
    Item { command, frame: 3, autocontinue: 1, ..Item::default() }
}

pub fn pair(command: u16, first: f32, second: f32) -> Item {
    Item { params: [first.to_bits(), second.to_bits(), 0, 0], ..nav(command) }
}

pub fn ack(to: Address, result: u8, kind: u8, number: u32) -> Option<Message> {
    Some(Message::Ack { to, result, kind, number })
}

pub fn request(to: Address, seq: u16, kind: u8) -> Option<Message> {
    Some(Message::RequestInt { seq, to, kind })
}
