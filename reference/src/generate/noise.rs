//! What happens between the items of an upload: losses, repetitions, other
//! stations, expiries and requests.

use super::{values, Generator, EDGE_CLOCKS};
use crate::layout::*;
use crate::limits::*;
use crate::script::{record, Record};

type Act = fn(&mut Generator, usize);

/// Acts that leave an upload of the kind running.
const GENTLE: &[(usize, Act)] = &[
    (4, Generator::repeat_item),
    (3, Generator::early_item),
    (3, Generator::wrong_invalid_item),
    (4, Generator::foreign_item),
    (2, Generator::foreign_count),
    (2, Generator::foreign_change),
    (2, Generator::foreign_clear),
    (2, Generator::foreign_ack),
    (2, Generator::accepting_ack),
    (2, Generator::ack_of_another_kind),
    (4, Generator::any_request),
    (2, Generator::any_set_current),
    (3, Generator::any_done),
    (3, Generator::unknown_kind),
    (4, Generator::refused_message),
    (8, Generator::another_upload),
];

/// Acts that may end it.
const HARSH: &[(usize, Act)] = &[
    (4, Generator::any_timer),
    (1, Generator::ending_ack),
    (3, Generator::own_count),
    (2, Generator::own_change),
    (1, Generator::own_clear),
    (2, Generator::expected_edge_item),
    (1, Generator::cut_item),
    (1, Generator::jump_clock),
];

impl Generator {
    /// Something between the items; nothing of it ends the upload.
    pub(super) fn gentle_noise(&mut self, kind: usize) {
        let act = self.random.weighted(GENTLE);
        act(self, kind);
    }

    pub(super) fn any_noise(&mut self, kind: usize) {
        let harsh = self.random.chance(1, 4);
        let act = self.random.weighted(if harsh { HARSH } else { GENTLE });
        act(self, kind);
    }

    /// The next item of the running upload, as planned.
    pub(super) fn expected_item(&mut self, kind: usize) -> Option<Item> {
        let upload = self.upload(kind)?;
        let planned = &self.planned[kind];
        let fits = planned.len() == usize::from(upload.count);
        let item = match planned.get(usize::from(upload.next)) {
            Some(item) if fits => *item,
            _ => values::valid_item(&mut self.random, kind, upload.next, upload.count),
        };
        Some(Item { seq: upload.next, ..item })
    }

    pub(super) fn send_expected(&mut self, kind: usize) {
        if let Some(item) = self.expected_item(kind) {
            let station = self.uploader(kind);
            self.send_item(station, item);
        }
    }

    /// An item of the uploading station with another number.
    fn numbered_item(&mut self, kind: usize, number: u16) -> Item {
        let count = self.upload(kind).map_or(2, |upload| upload.count);
        values::valid_item(&mut self.random, kind, number, count.max(2))
    }

    fn repeat_item(&mut self, kind: usize) {
        let next = self.upload(kind).map_or(1, |upload| upload.next);
        let item = self.numbered_item(kind, next.wrapping_sub(1));
        let station = self.uploader(kind);
        self.send_item(station, item);
    }

    fn early_item(&mut self, kind: usize) {
        let next = self.upload(kind).map_or(0, |upload| upload.next);
        let ahead = self.random.pick(&[1, 1, 2, 256, 65535]);
        let item = self.numbered_item(kind, next.wrapping_add(ahead));
        let station = self.uploader(kind);
        self.send_item(station, item);
    }

    fn wrong_invalid_item(&mut self, kind: usize) {
        let next = self.upload(kind).map_or(0, |upload| upload.next);
        let other = self.random.pick(&[1, 65535]);
        let mut item = self.numbered_item(kind, next.wrapping_add(other));
        values::spoil(&mut self.random, &mut item, 3);
        let station = self.uploader(kind);
        self.send_item(station, item);
    }

    fn foreign_item(&mut self, kind: usize) {
        let next = self.upload(kind).map_or(0, |upload| upload.next);
        let item = self.numbered_item(kind, next);
        let station = self.stranger(kind);
        self.send_item(station, item);
    }

    fn foreign_count(&mut self, kind: usize) {
        let station = self.stranger(kind);
        let count = self.any_count(kind);
        if self.upload(kind).is_some() {
            self.send_count(station, kind as u8, count);
        }
    }

    fn foreign_clear(&mut self, kind: usize) {
        let station = self.stranger(kind);
        let covered = self.random.pick(&[kind as u8, ALL_KINDS]);
        if self.upload(kind).is_some() {
            self.send_clear(station, covered);
        }
    }

    fn foreign_ack(&mut self, kind: usize) {
        let station = self.stranger(kind);
        let result = self.random.byte();
        self.send_ack(station, result, kind as u8);
    }

    fn accepting_ack(&mut self, kind: usize) {
        let station = self.uploader(kind);
        self.send_ack(station, 0, kind as u8);
    }

    fn ack_of_another_kind(&mut self, kind: usize) {
        let station = self.uploader(kind);
        let other = self.random.pick(&[3, 7, 128, 255, ((kind + 1) % KINDS) as u8]);
        let result = self.random.pick(&[1, 4, 15, 16, 255]);
        self.send_ack(station, result, other);
    }

    pub(super) fn any_request(&mut self, kind: usize) {
        let station = self.any_station();
        if self.random.chance(1, 3) {
            self.send_request_list(station, kind as u8);
            return;
        }
        let length = usize::from(self.length(kind));
        let edges = [0, length, length + 1, length.saturating_sub(1), 256, 65535];
        let inside = self.random.below(length + 1);
        let edge = self.random.pick(&edges);
        let seq = self.random.weighted(&[(3, inside), (1, edge)]);
        self.send_request_int(station, seq as u16, kind as u8);
    }

    pub(super) fn any_set_current(&mut self, _kind: usize) {
        let station = self.any_station();
        let length = usize::from(self.length(FLIGHT));
        let inside = self.random.below(length + 1);
        let seq = self.random.weighted(&[(6, inside), (1, length), (1, 65535)]);
        self.send_set_current(station, seq as u16);
    }

    fn any_done(&mut self, _kind: usize) {
        self.done();
    }

    fn unknown_kind(&mut self, _kind: usize) {
        let sender = self.any_station();
        let kind = self.random.pick(&[3, 4, 7, 127, 128, 254, 255]);
        match self.random.below(6) {
            0 => self.send_count(sender, kind, 1),
            1 => self.send_request_list(sender, kind),
            2 => self.send_request_int(sender, 0, kind),
            3 => self.send_change(sender, kind, (0, 0)),
            4 if kind != ALL_KINDS => self.send_clear(sender, kind),
            _ => {
                let item = self.numbered_item(FLIGHT, 0);
                self.send_item(sender, Item { kind, ..item });
            }
        }
    }

    /// Goes on with the upload of another kind.
    fn another_upload(&mut self, kind: usize) {
        let step = self.random.within(1, 2);
        self.send_expected((kind + step) % KINDS);
    }

    /// A timer call at some time after the upload's last start.
    pub(super) fn any_timer(&mut self, kind: usize) {
        let start = self.upload(kind).map_or(self.clock, |upload| upload.start);
        let half = 1u32 << 31;
        let elapsed = self.random.weighted(&[
            (2, 0),
            (2, 100),
            (6, EXPIRY_MS - 1),
            (8, EXPIRY_MS),
            (2, EXPIRY_MS + 1),
            (2, 1000),
            (1, half - 1),
            (2, half),
            (1, half + 1),
            (1, u32::MAX),
            (1, self.clock.wrapping_sub(start)),
        ]);
        let now = start.wrapping_add(elapsed);
        if elapsed < 2000 {
            self.clock = now;
        }
        let called = self.random.weighted(&[(20, kind as u8), (1, 3), (1, 255)]);
        self.timer(called, now);
    }

    fn ending_ack(&mut self, kind: usize) {
        let station = self.uploader(kind);
        let result = self.random.pick(&[1, 2, 5, 13, 15, 16, 128, 255]);
        self.send_ack(station, result, kind as u8);
    }

    pub(super) fn own_count(&mut self, kind: usize) {
        let station = self.uploader(kind);
        let count = self.any_count(kind);
        self.send_count(station, kind as u8, count);
    }

    /// A count at an edge, or a small one.
    pub(super) fn any_count(&mut self, kind: usize) -> u16 {
        let size = PLAN_SIZE[kind];
        let small = self.random.within(1, 8) as u16;
        self.random.weighted(&[(2, 0), (4, small), (1, size), (2, size + 1), (1, 257), (1, 65535)])
    }

    fn own_clear(&mut self, kind: usize) {
        let station = self.uploader(kind);
        let covered = self.random.pick(&[kind as u8, ALL_KINDS]);
        self.send_clear(station, covered);
    }

    /// The expected item with fields at an edge, valid or not.
    pub(super) fn expected_edge_item(&mut self, kind: usize) {
        if let Some(upload) = self.upload(kind) {
            let item = values::edge_item(&mut self.random, kind, upload.next, upload.count);
            self.send_item(upload.station, item);
        }
    }

    /// The expected item with its payload cut somewhere.
    fn cut_item(&mut self, kind: usize) {
        if let Some(item) = self.expected_item(kind) {
            let station = self.uploader(kind);
            let kept = self.random.within(1, ITEM_BYTES);
            let payload = item.to_bytes()[..kept].to_vec();
            let record = self.message(station, ITEM_INT, payload);
            self.emit(record);
        }
    }

    pub(super) fn jump_clock(&mut self, _kind: usize) {
        self.clock = match self.random.chance(1, 3) {
            true => self.random.word(),
            false => self.random.pick(&EDGE_CLOCKS),
        };
    }

    /// A message that would do something, spoiled so that it is refused.
    pub(super) fn refused_message(&mut self, kind: usize) {
        let sender = self.uploader(kind);
        let message = self.weighty_message(kind);
        let payload = message.write().trimmed().to_vec();
        let mut record = self.message(sender, message.id(), payload);
        for _ in 0..self.random.pick(&[1, 1, 2, 3]) {
            self.spoil_call(&mut record);
        }
        self.emit(record);
    }

    /// A message for us that changes something if it is not refused.
    fn weighty_message(&mut self, kind: usize) -> Message {
        let to = self.target();
        let wire_kind = kind as u8;
        match self.random.below(7) {
            0 => Message::Count { count: 0, to, kind: wire_kind, number: 0 },
            1 => Message::Count { count: 3, to, kind: wire_kind, number: 0 },
            2 => Message::ClearAll { to, kind: ALL_KINDS },
            3 => Message::Ack { to, result: 1, kind: wire_kind, number: 0 },
            4 => Message::SetCurrent { seq: 0, to },
            5 => Message::WritePartialList { start: 0, end: 0, to, kind: wire_kind },
            _ => {
                let item = self.expected_item(kind).unwrap_or_default();
                Message::ItemInt(Item { to, kind: wire_kind, ..item })
            }
        }
    }

    /// Gives a call one reason to be refused.
    pub(super) fn spoil_call(&mut self, record: &mut Record) {
        match self.random.below(5) {
            0 => record.store = self.short_store(),
            1 => record.reply = self.short_reply(),
            _ if record.kind != record::MESSAGE => {}
            2 => record.payload.clear(),
            3 => record.a = self.unread_id(record.a),
            _ => self.foreign_target(record),
        }
    }

    pub(super) fn short_store(&mut self) -> u32 {
        let any = self.random.below(STORE_WORDS);
        self.random.weighted(&[(1, 0), (4, STORE_WORDS - 1), (1, ITEM_WORDS), (1, any)]) as u32
    }

    fn short_reply(&mut self) -> u32 {
        let any = self.random.below(REPLY_BYTES);
        self.random.weighted(&[(1, 0), (4, REPLY_BYTES - 1), (1, any)]) as u32
    }

    fn unread_id(&mut self, id: u32) -> u32 {
        let any = self.random.word();
        let others = [0, 37, 39, 40, 42, 46, 48, 50, 52, 72, 74, 253, 255];
        let other = self.random.pick(&others);
        let wider = self.random.pick(&[1 << 8, 1 << 16, 1 << 24, 1 << 31]);
        self.random.weighted(&[(3, other), (3, id ^ wider), (1, any)])
    }

    /// Makes the target someone else: another system, component or both.
    fn foreign_target(&mut self, record: &mut Record) {
        let at = match record.a {
            SET_CURRENT | COUNT | REQUEST_INT => 2,
            WRITE_PARTIAL_LIST => 4,
            ITEM_INT => 32,
            _ => 0,
        };
        let strange = self.random.pick(&[2, 99, 254]);
        let fields = self.random.pick(&[&[0][..], &[1], &[0, 1]]);
        if record.payload.len() < at + 2 {
            record.payload.resize(at + 2, 0);
        }
        for field in fields {
            record.payload[at + field] = strange;
        }
    }
}
