//! The lists of calls, each the same every time.

use bench::service::*;
use bench::slots::{self, MESSAGE, SLOT, TIMER};

use crate::mixed::mixed;
use crate::plans::{flight, plan, Payload, OWN};
use crate::random::Random;

/// A list: its name, and its slots for so many calls.
type List = (&'static str, fn(usize) -> Vec<u8>);

pub const LISTS: [List; 3] = [("mixed", mixed), ("jumps", jumps), ("timers", timers)];

pub const STATIONS: [Station; 4] = [
    Station { system: 255, component: 190 },
    Station { system: 254, component: 190 },
    Station { system: 255, component: 191 },
    Station { system: 7, component: 1 },
];

/// Writes a list, and follows what the drone does with it, so that the calls fit.
pub struct Writer {
    pub slots: Vec<u8>,
    calls: usize,
    clock: u32,
    pub random: Random,
    pub drone: Service,
    /// The items of each kind's upload.
    pub uploads: [Vec<Payload>; KINDS],
    /// Until which call each kind has no uploads of full size, and until which one its plan is only changed.
    pub quiet: [usize; KINDS],
    pub changing: [usize; KINDS],
}

impl Writer {
    pub fn new(calls: usize, seed: u64) -> Writer {
        Writer {
            slots: Vec::with_capacity(calls * SLOT),
            calls,
            clock: u32::MAX - 60_000,
            random: Random(seed),
            drone: Service::fresh(false),
            uploads: [const { Vec::new() }; KINDS],
            quiet: [0; KINDS],
            changing: [0; KINDS],
        }
    }

    pub fn made(&self) -> usize {
        self.slots.len() / SLOT
    }

    pub fn more(&self) -> bool {
        self.made() < self.calls
    }

    pub fn later(&mut self, milliseconds: usize) {
        self.clock = self.clock.wrapping_add(milliseconds as u32);
    }

    pub fn call(&mut self, mut slot: [u8; SLOT]) {
        if self.more() {
            slot[12..16].copy_from_slice(&self.clock.to_le_bytes());
            slots::serve(&mut self.drone, &slot, &mut [0; REPLY_BYTES]);
            self.slots.extend(slot);
        }
    }

    pub fn timer(&mut self, kind: u8) {
        let mut slot = [0; SLOT];
        slot[0] = TIMER;
        slot[5] = kind;
        self.call(slot);
    }

    pub fn message(&mut self, sender: Station, id: u32, payload: &[u8]) {
        let mut slot = [0; SLOT];
        slot[..7].copy_from_slice(&[
            MESSAGE,
            OWN.system,
            OWN.component,
            sender.system,
            sender.component,
            0,
            payload.len() as u8,
        ]);
        slot[8..12].copy_from_slice(&id.to_le_bytes());
        slot[16..16 + payload.len()].copy_from_slice(payload);
        self.call(slot);
    }

    /// A message without trailing zeros, as MAVLink 2 sends it.
    pub fn send(&mut self, sender: Station, id: u32, payload: &[u8]) {
        let len = payload.iter().rposition(|byte| *byte != 0).map_or(1, |last| last + 1);
        self.message(sender, id, &payload[..len]);
    }

    pub fn count(&mut self, sender: Station, kind: usize, items: Vec<Payload>) {
        let [c0, c1] = (items.len() as u16).to_le_bytes();
        self.send(sender, COUNT, &[c0, c1, OWN.system, OWN.component, kind as u8, 0, 0, 0, 0]);
        self.started(sender, kind, items);
    }

    /// Announces that items change, from the first one's number on.
    pub fn change(&mut self, sender: Station, kind: usize, first: usize, items: Vec<Payload>) {
        let ends = (first as i16, (first + items.len() - 1) as i16);
        self.send(sender, WRITE_PARTIAL_LIST, &change(ends, kind as u8));
        self.started(sender, kind, items);
    }

    /// Keeps the items of an upload that has just been started.
    pub fn started(&mut self, sender: Station, kind: usize, items: Vec<Payload>) {
        let starts = |upload: Upload| {
            let asked = upload.first..=upload.last;
            upload.station == sender && upload.next == upload.first && asked.eq(numbers(&items))
        };
        if self.drone.plans[kind].upload.is_some_and(starts) {
            self.uploads[kind] = items;
        }
    }

    /// The station of an upload, and how many items it has taken.
    pub fn expected(&self, kind: usize) -> Option<(Station, usize)> {
        let upload = self.drone.plans[kind].upload?;
        Some((upload.station, usize::from(upload.next - upload.first)))
    }

    /// Sends the item that is expected, if there is an upload.
    pub fn item(&mut self, kind: usize) {
        if let Some((station, taken)) = self.expected(kind) {
            let item = self.uploads[kind][taken];
            self.send(station, ITEM_INT, &item);
        }
    }

    /// Sends all the items that an upload expects, one after another.
    fn items(&mut self, kind: usize) {
        while self.more() && self.expected(kind).is_some() {
            self.later(5);
            self.item(kind);
        }
    }

    pub fn request(&mut self, sender: Station, kind: u8, seq: u16) {
        let [s0, s1] = seq.to_le_bytes();
        self.send(sender, REQUEST_INT, &[s0, s1, OWN.system, OWN.component, kind]);
    }
}

fn numbers(items: &[Payload]) -> impl Iterator<Item = u16> + '_ {
    items.iter().map(|item| u16::from_le_bytes([item[28], item[29]]))
}

/// A WRITE_PARTIAL_LIST's bytes: items from one number to another change.
pub fn change((start, end): (i16, i16), kind: u8) -> [u8; 7] {
    let ([s0, s1], [e0, e1]) = (start.to_le_bytes(), end.to_le_bytes());
    [s0, s1, e0, e1, OWN.system, OWN.component, kind]
}

/// Flight plans with fifteen jumps at the end or at the start, and with one more, which is refused; each is uploaded and read. Then jumps of the plan that
/// stands are changed: some have other targets, and more of them are refused.
fn jumps(calls: usize) -> Vec<u8> {
    let mut writer = Writer::new(calls, 2);
    let station = STATIONS[0];
    let shapes = [241..256, 0..15, 241..256, 240..256, 0..16];
    for shape in shapes.iter().cycle() {
        if !writer.more() {
            break;
        }
        let items = flight(&mut writer.random, 256, |seq| shape.contains(&seq));
        let changed = flight(&mut writer.random, 256, |seq| shape.contains(&seq));
        writer.count(station, FLIGHT, items);
        writer.items(FLIGHT);
        for first in [shape.start, 128] {
            writer.change(station, FLIGHT, first, changed[first..first + 3].to_vec());
            writer.items(FLIGHT);
        }
        writer.send(station, REQUEST_LIST, &[OWN.system, OWN.component, FLIGHT as u8]);
        for seq in 0..writer.drone.plans[FLIGHT].length {
            writer.request(station, FLIGHT as u8, seq);
        }
        writer.send(station, ACK, &[OWN.system, OWN.component]);
    }
    writer.slots
}

/// Mostly timer calls: uploads that expire, ask again and are given up, some with an item on the way, and kinds without an upload.
fn timers(calls: usize) -> Vec<u8> {
    let mut writer = Writer::new(calls, 3);
    while writer.more() {
        let step = 20 + writer.random.below(70);
        writer.later(step);
        let kind = writer.random.below(KINDS);
        match writer.random.below(100) {
            0..=5 => {
                let station = writer.some_station();
                let items = plan(&mut writer.random, kind, usize::from(SIZES[kind]));
                writer.count(station, kind, items);
            }
            6..=8 => writer.item(kind),
            _ => writer.timer(kind as u8),
        }
    }
    writer.slots
}
