//! The drone's mission service in plain Rust, written to be quick: message and timer calls as document 01 and its amendments have them. The state is kept
//! by `&mut`, the plans are arrays of items, and no call allocates. What a store would hold stands in the arrays; of a lent store the length alone counts.

mod copy;
mod fence;
mod item;
mod reply;
#[cfg(test)]
mod tests;

use copy::copy;
use item::{verdict, Item, DO_JUMP};
use reply::{write, write_item, Out};

/// The ids that are read.
pub const WRITE_PARTIAL_LIST: u32 = 38;
pub const SET_CURRENT: u32 = 41;
pub const REQUEST_LIST: u32 = 43;
pub const COUNT: u32 = 44;
pub const CLEAR_ALL: u32 = 45;
pub const ACK: u32 = 47;
pub const REQUEST_INT: u32 = 51;
pub const ITEM_INT: u32 = 73;
/// The ids that are only written.
const CURRENT: u32 = 42;
const STATUSTEXT: u32 = 253;

/// Kinds of plan, and the kind in CLEAR_ALL that covers all.
pub const KINDS: usize = 3;
pub const FLIGHT: usize = 0;
pub const FENCE: usize = 1;
pub const RALLY: usize = 2;
pub const ALL_KINDS: u8 = 255;

/// Most items of a plan, and its first place in a half, by kind.
pub const SIZES: [u16; KINDS] = [256, 64, 32];
const FIRST: [usize; KINDS] = [0, 256, 320];
const PLACES: usize = 352;
pub const ITEM_BYTES: usize = 38;
/// Words of the store, eight for each item of both halves.
pub const STORE_WORDS: usize = 2 * PLACES * 8;
pub const REPLY_BYTES: usize = 54;

const MOST_JUMPS: usize = 15;
const MOST_RUNS: u16 = 32_767;
const MOST_REPEATS: u8 = 5;
const EXPIRY_MS: u32 = 250;
/// Elapsed times from here on are a clock that went back.
const BACKWARD_MS: u32 = 1 << 31;

/// The outcomes of a call.
mod outcome {
    pub const REPLY: u8 = 0;
    pub const NO_REPLY: u8 = 1;
    pub const SHORT_REPLY: u8 = 10;
    pub const EMPTY_PAYLOAD: u8 = 11;
    pub const NOT_READ: u8 = 12;
    pub const NOT_FOR_US: u8 = 13;
    pub const SHORT_STORE: u8 = 14;
    pub const OUT_OF_RANGE: u8 = 15;
}

/// The results of MAV_MISSION_RESULT that are used.
mod result {
    pub const ACCEPTED: u8 = 0;
    pub const UNSUPPORTED_FRAME: u8 = 2;
    pub const UNSUPPORTED: u8 = 3;
    pub const NO_SPACE: u8 = 4;
    pub const INVALID: u8 = 5;
    pub const INVALID_PARAM1: u8 = 6;
    pub const INVALID_PARAM2: u8 = 7;
    pub const INVALID_X: u8 = 10;
    pub const INVALID_Y: u8 = 11;
    pub const INVALID_Z: u8 = 12;
    pub const INVALID_SEQUENCE: u8 = 13;
    pub const DENIED: u8 = 14;
    pub const CANCELLED: u8 = 15;
}

/// STATUSTEXT's bytes, trimmed: severity 4 and the text.
const NO_SUCH_ITEM: [u8; 21] = *b"\x04no such mission item";

/// A system and a component.
#[derive(Clone, Copy, PartialEq, Eq, Debug)]
pub struct Station {
    pub system: u8,
    pub component: u8,
}

/// What a message call is handed beside the lent memory.
pub struct Message<'a> {
    pub own: Station,
    pub sender: Station,
    pub id: u32,
    pub payload: &'a [u8],
    pub clock: u32,
}

/// What a call returns.
#[derive(Clone, Copy, PartialEq, Eq, Debug)]
pub struct Served {
    pub outcome: u8,
    pub id: u32,
    pub len: usize,
}

fn without_reply(outcome: u8) -> Served {
    Served { outcome, id: 0, len: 0 }
}

/// A running upload: of a whole plan, or a partial one of items first to last, which leaves the others.
#[derive(Clone, Copy)]
pub struct Upload {
    pub station: Station,
    pub count: u16,
    pub next: u16,
    pub started: u32,
    pub repeats: u8,
    pub partial: bool,
    pub first: u16,
    pub last: u16,
    /// The jumps among the items taken, and of a partial upload also among those of the plan that they do not replace.
    jumps: u16,
}

impl Upload {
    fn whole(station: Station, count: u16, started: u32) -> Upload {
        let last = count - 1;
        Upload {
            station,
            count,
            next: 0,
            started,
            repeats: 0,
            partial: false,
            first: 0,
            last,
            jumps: 0,
        }
    }

    fn in_range(&self, length: u16, size: u16) -> bool {
        let Upload { count, next, first, last, .. } = *self;
        let range = match self.partial {
            true => count == length && first <= next && last < count,
            false => count <= size && first == 0 && usize::from(last) + 1 == usize::from(count),
        };
        range && next <= last && self.repeats <= MOST_REPEATS
    }
}

/// What is kept of one kind beside its items.
#[derive(Clone, Copy)]
pub struct Plan {
    pub length: u16,
    half: u8,
    number: u32,
    jumps: u16,
    pub upload: Option<Upload>,
}

impl Plan {
    /// An empty plan shows 0.
    fn number_shown(&self) -> u32 {
        if self.length == 0 {
            0
        } else {
            self.number
        }
    }

    fn another_uploads(&self, station: Station) -> bool {
        self.upload.is_some_and(|upload| upload.station != station)
    }

    fn in_range(&self, size: u16) -> bool {
        let upload = self.upload.is_none_or(|upload| upload.in_range(self.length, size));
        self.length <= size && upload
    }

    /// Gives the plan that an upload makes a new number.
    fn renumber(&mut self, upload: &Upload) -> u32 {
        self.length = upload.count;
        self.jumps = upload.jumps;
        self.number = self.number.checked_add(1).unwrap_or(1);
        self.number
    }
}

/// The service: its state, and two halves with the items of all kinds.
pub struct Service {
    /// Whether item 0 of the flight plan is home, as the fresh start chose.
    home: bool,
    pub plans: [Plan; KINDS],
    current: u16,
    begun: bool,
    runs: [u16; MOST_JUMPS],
    items: [[Item; PLACES]; 2],
}

impl Service {
    /// A fresh start, with or without home in item 0.
    pub fn fresh(home: bool) -> Service {
        let plan = Plan { length: 0, half: 0, number: 0, jumps: 0, upload: None };
        Service {
            home,
            plans: [plan; KINDS],
            current: 0,
            begun: false,
            runs: [0; MOST_JUMPS],
            items: [[Item::EMPTY; PLACES]; 2],
        }
    }

    /// A message call, lent a store of so many words.
    pub fn message(&mut self, call: &Message, store: usize, reply: &mut [u8]) -> Served {
        let reply = match self.admitted(store, reply) {
            Ok(reply) => reply,
            Err(refusal) => return without_reply(refusal),
        };
        if call.payload.is_empty() {
            return without_reply(outcome::EMPTY_PAYLOAD);
        }
        let mut item = Item::EMPTY;
        copy(&call.payload[..call.payload.len().min(ITEM_BYTES)], &mut item.0);
        self.answer(call, &item, reply)
    }

    /// A timer call for one kind.
    pub fn timer(&mut self, kind: u8, clock: u32, store: usize, reply: &mut [u8]) -> Served {
        let reply = match self.admitted(store, reply) {
            Ok(reply) => reply,
            Err(refusal) => return without_reply(refusal),
        };
        let Some(plan) = self.plans.get_mut(usize::from(kind)) else {
            return without_reply(outcome::NOT_READ);
        };
        let Some(upload) = &mut plan.upload else {
            return without_reply(outcome::NO_REPLY);
        };
        if !(EXPIRY_MS..BACKWARD_MS).contains(&clock.wrapping_sub(upload.started)) {
            return without_reply(outcome::NO_REPLY);
        }
        if upload.repeats < MOST_REPEATS {
            upload.repeats += 1;
            upload.started = clock;
            return request(reply, upload.next, upload.station, kind);
        }
        let station = upload.station;
        plan.upload = None;
        ack(reply, station, result::CANCELLED, kind, 0)
    }

    /// The refusals 14, 15 and 10, in this order, or the part of the reply buffer that is written.
    #[inline(always)]
    fn admitted<'a>(&self, store: usize, reply: &'a mut [u8]) -> Result<Out<'a>, u8> {
        if store < STORE_WORDS {
            return Err(outcome::SHORT_STORE);
        }
        if !self.in_range() {
            return Err(outcome::OUT_OF_RANGE);
        }
        reply.first_chunk_mut().ok_or(outcome::SHORT_REPLY)
    }

    fn in_range(&self) -> bool {
        let [flight, fence, rally] = &self.plans;
        flight.in_range(SIZES[FLIGHT])
            && fence.in_range(SIZES[FENCE])
            && rally.in_range(SIZES[RALLY])
            && (self.current == 0 || self.current < flight.length)
            && self.runs.iter().fold(0, |all, runs| all | runs) <= MOST_RUNS
    }

    /// What each message does that is for us; its payload stands at the start of an item.
    fn answer(&mut self, call: &Message, item: &Item, reply: Out) -> Served {
        let p = &item.0;
        let sender = call.sender;
        let for_us = |at: usize| {
            (p[at] == call.own.system || p[at] == 0)
                && (p[at + 1] == call.own.component || p[at + 1] == 0)
        };
        match call.id {
            WRITE_PARTIAL_LIST if for_us(4) => {
                let ends = (u16_at(p, 0) as i16, u16_at(p, 2) as i16);
                self.write_partial_list(sender, ends, p[6], call.clock, reply)
            }
            SET_CURRENT if for_us(2) => self.set_current(u16_at(p, 0), reply),
            REQUEST_LIST if for_us(0) => self.request_list(sender, p[2], reply),
            COUNT if for_us(2) => self.count(sender, u16_at(p, 0), p[4], call.clock, reply),
            CLEAR_ALL if for_us(0) => self.clear_all(sender, p[2], reply),
            ACK if for_us(0) => self.acknowledged(sender, p[2], p[3]),
            REQUEST_INT if for_us(2) => self.request_int(sender, u16_at(p, 0), p[4], reply),
            ITEM_INT if for_us(32) => self.item_int(sender, item, call.clock, reply),
            WRITE_PARTIAL_LIST | SET_CURRENT | REQUEST_LIST | COUNT | CLEAR_ALL | ACK
            | REQUEST_INT | ITEM_INT => without_reply(outcome::NOT_FOR_US),
            _ => without_reply(outcome::NOT_READ),
        }
    }

    /// Home is never chosen: item 1 is in its place.
    fn set_current(&mut self, seq: u16, reply: Out) -> Served {
        let total = self.plans[FLIGHT].length;
        let seq = seq.max(u16::from(self.home));
        if seq >= total {
            return write(reply, STATUSTEXT, &NO_SUCH_ITEM);
        }
        self.current = seq;
        self.begun = false;
        let mut bytes = [0; 18];
        bytes[..2].copy_from_slice(&seq.to_le_bytes());
        bytes[2..4].copy_from_slice(&total.to_le_bytes());
        for (plan, shown) in self.plans.iter().zip(bytes[6..].chunks_exact_mut(4)) {
            shown.copy_from_slice(&plan.number_shown().to_le_bytes());
        }
        write(reply, CURRENT, &bytes)
    }

    fn request_list(&self, sender: Station, kind: u8, reply: Out) -> Served {
        let Some(plan) = self.plans.get(usize::from(kind)) else {
            return ack(reply, sender, result::UNSUPPORTED, kind, 0);
        };
        let [c0, c1] = plan.length.to_le_bytes();
        let [n0, n1, n2, n3] = plan.number_shown().to_le_bytes();
        write(reply, COUNT, &[c0, c1, sender.system, sender.component, kind, n0, n1, n2, n3])
    }

    fn count(&mut self, sender: Station, count: u16, kind: u8, clock: u32, reply: Out) -> Served {
        let Some(plan) = self.plans.get_mut(usize::from(kind)) else {
            return ack(reply, sender, result::UNSUPPORTED, kind, 0);
        };
        if plan.another_uploads(sender) {
            return ack(reply, sender, result::DENIED, kind, 0);
        }
        plan.upload = None;
        if count > SIZES[usize::from(kind)] {
            return ack(reply, sender, result::NO_SPACE, kind, 0);
        }
        if count == 0 {
            self.empty(usize::from(kind));
            return ack(reply, sender, result::ACCEPTED, kind, 0);
        }
        plan.upload = Some(Upload::whole(sender, count, clock));
        request(reply, 0, sender, kind)
    }

    fn write_partial_list(
        &mut self,
        sender: Station,
        (start, end): (i16, i16),
        kind: u8,
        clock: u32,
        reply: Out,
    ) -> Served {
        let Some(plan) = self.plans.get_mut(usize::from(kind)) else {
            return ack(reply, sender, result::UNSUPPORTED, kind, 0);
        };
        if plan.another_uploads(sender) {
            return ack(reply, sender, result::DENIED, kind, 0);
        }
        plan.upload = None;
        if start < 0 || end < start || end as u16 >= plan.length {
            return ack(reply, sender, result::INVALID_SEQUENCE, kind, 0);
        }
        let (first, last, jumps) = (start as u16, end as u16, plan.jumps);
        let whole = Upload::whole(sender, plan.length, clock);
        plan.upload = Some(Upload { next: first, partial: true, first, last, jumps, ..whole });
        request(reply, first, sender, kind)
    }

    fn clear_all(&mut self, sender: Station, kind: u8, reply: Out) -> Served {
        let covered = match kind {
            0..=2 => usize::from(kind)..usize::from(kind) + 1,
            ALL_KINDS => 0..KINDS,
            _ => return ack(reply, sender, result::UNSUPPORTED, kind, 0),
        };
        if self.plans[covered.clone()].iter().any(|plan| plan.another_uploads(sender)) {
            return ack(reply, sender, result::DENIED, kind, 0);
        }
        for each in covered {
            self.plans[each].upload = None;
            self.empty(each);
        }
        ack(reply, sender, result::ACCEPTED, kind, 0)
    }

    /// A nonzero ACK from the station that uploads its kind ends the upload.
    fn acknowledged(&mut self, sender: Station, result: u8, kind: u8) -> Served {
        if let Some(plan) = self.plans.get_mut(usize::from(kind)) {
            if result != result::ACCEPTED && !plan.another_uploads(sender) {
                plan.upload = None;
            }
        }
        without_reply(outcome::NO_REPLY)
    }

    fn request_int(&self, sender: Station, seq: u16, kind: u8, reply: Out) -> Served {
        let index = usize::from(kind);
        let Some(plan) = self.plans.get(index) else {
            return ack(reply, sender, result::UNSUPPORTED, kind, 0);
        };
        if seq >= plan.length {
            return ack(reply, sender, result::INVALID_SEQUENCE, kind, 0);
        }
        let current = index == FLIGHT && seq == self.current;
        let item = &self.items[usize::from(plan.half)][FIRST[index] + usize::from(seq)];
        write_item(reply, item, sender, current)
    }

    fn item_int(&mut self, sender: Station, item: &Item, clock: u32, reply: Out) -> Served {
        let kind = item.kind();
        let index = usize::from(kind);
        let Some(plan) = self.plans.get_mut(index) else {
            return ack(reply, sender, result::UNSUPPORTED, kind, 0);
        };
        let Some(upload) = &mut plan.upload else {
            return ack(reply, sender, result::INVALID_SEQUENCE, kind, 0);
        };
        if upload.station != sender {
            return ack(reply, sender, result::DENIED, kind, 0);
        }
        if item.seq() != upload.next {
            return request(reply, upload.next, sender, kind);
        }
        let room_taken = if upload.partial { 0 } else { usize::from(upload.jumps) };
        let home = self.home && index == FLIGHT;
        let verdict = verdict(item, index, upload.count, room_taken, home);
        if verdict != result::ACCEPTED {
            plan.upload = None;
            return ack(reply, sender, verdict, kind, 0);
        }
        let place = FIRST[index] + usize::from(upload.next);
        if upload.partial && self.items[usize::from(plan.half)][place].command() == DO_JUMP {
            upload.jumps -= 1;
        }
        self.items[usize::from(1 - plan.half)][place] = *item;
        if item.command() == DO_JUMP {
            upload.jumps += 1;
        }
        if upload.next == upload.last {
            let upload = *upload;
            plan.upload = None;
            return self.finish(&upload, index, reply);
        }
        upload.next += 1;
        upload.started = clock;
        upload.repeats = 0;
        request(reply, upload.next, sender, kind)
    }

    /// The items of a whole upload, which stand in the other half, become the plan unless they are a fence that breaks the rule on fences.
    fn finish(&mut self, upload: &Upload, index: usize, reply: Out) -> Served {
        if upload.partial {
            return self.finish_partial(upload, index, reply);
        }
        let (station, kind) = (upload.station, index as u8);
        let half = 1 - self.plans[index].half;
        if index == FENCE && !fence::fits(self.plan(half, index, upload.count)) {
            return ack(reply, station, result::INVALID, kind, 0);
        }
        self.plans[index].half = half;
        let number = self.plans[index].renumber(upload);
        if index == FLIGHT {
            self.restart_flight();
        }
        ack(reply, station, result::ACCEPTED, kind, number)
    }

    /// The items of a partial upload change places with those of the plan that they replace, unless the whole then has jumps too many or is a fence that
    /// breaks the rule on fences.
    fn finish_partial(&mut self, upload: &Upload, index: usize, reply: Out) -> Served {
        let (station, kind) = (upload.station, index as u8);
        if usize::from(upload.jumps) > MOST_JUMPS {
            return ack(reply, station, result::NO_SPACE, kind, 0);
        }
        self.swap(upload, index);
        if index == FENCE && !fence::fits(self.plan(self.plans[FENCE].half, FENCE, upload.count)) {
            self.swap(upload, index);
            return ack(reply, station, result::INVALID, kind, 0);
        }
        let number = self.plans[index].renumber(upload);
        if index == FLIGHT {
            self.runs = [0; MOST_JUMPS];
        }
        ack(reply, station, result::ACCEPTED, kind, number)
    }

    /// Items of one kind from the first on in a half.
    fn plan(&self, half: u8, index: usize, count: u16) -> &[Item] {
        &self.items[usize::from(half)][FIRST[index]..][..usize::from(count)]
    }

    fn swap(&mut self, upload: &Upload, index: usize) {
        let [first, last] = [upload.first, upload.last].map(|seq| FIRST[index] + usize::from(seq));
        let [one, other] = &mut self.items;
        one[first..=last].swap_with_slice(&mut other[first..=last]);
    }

    /// The bytes of an item of a plan.
    pub fn stored(&self, index: usize, seq: usize) -> [u8; ITEM_BYTES] {
        self.items[usize::from(self.plans[index].half)][FIRST[index] + seq].0
    }

    fn empty(&mut self, index: usize) {
        self.plans[index].length = 0;
        if index == FLIGHT {
            self.restart_flight();
        }
    }

    fn restart_flight(&mut self) {
        self.current = 0;
        self.begun = false;
        self.runs = [0; MOST_JUMPS];
    }
}

fn u16_at(bytes: &[u8; ITEM_BYTES], at: usize) -> u16 {
    u16::from_le_bytes([bytes[at], bytes[at + 1]])
}

fn request(reply: Out, seq: u16, to: Station, kind: u8) -> Served {
    let [s0, s1] = seq.to_le_bytes();
    write(reply, REQUEST_INT, &[s0, s1, to.system, to.component, kind])
}

fn ack(reply: Out, to: Station, result: u8, kind: u8, number: u32) -> Served {
    let [n0, n1, n2, n3] = number.to_le_bytes();
    write(reply, ACK, &[to.system, to.component, result, kind, n0, n1, n2, n3])
}
