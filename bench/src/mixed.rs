//! The list `mixed`: every id and the timer about as often, while several stations upload plans of full size.

use bench::service::*;
use bench::slots::MOST_PAYLOAD;

use crate::lists::{change, Writer, STATIONS};
use crate::plans::{changed, item, plan, Payload, OWN};

pub fn mixed(calls: usize) -> Vec<u8> {
    let mut writer = Writer::new(calls, 1);
    while writer.more() {
        let step = writer.random.below(4);
        writer.later(step);
        if writer.random.one_in(2_000) {
            writer.later(250);
        }
        match writer.random.below(9) {
            0 => writer.some_timer(),
            1 => writer.some_change(),
            2 => writer.some_set_current(),
            3 => writer.some_request_list(),
            4 => writer.some_count(),
            5 => writer.some_clear_all(),
            6 => writer.some_ack(),
            7 => writer.some_request_int(),
            _ => writer.some_item(),
        }
    }
    writer.slots
}

/// Calls of the mixed list.
impl Writer {
    /// A message in one of the forms that payloads have: mostly trimmed and to the drone, some to all, some with more bytes, some that are refused.
    fn send_somehow(&mut self, sender: Station, id: u32, payload: &[u8], target: usize) {
        let mut payload = payload.to_vec();
        match self.random.below(200) {
            0 => payload[target] = 9,
            1 => payload[target + 1] = 9,
            2 => return self.message(sender, id, &[]),
            3 => {
                let id = self.random.of(&[0, 39, 42, 46, 253, 300, id + 256, id + 65_536]);
                return self.message(sender, id, &payload);
            }
            4..=9 => payload[target] = 0,
            10..=15 => payload[target..target + 2].fill(0),
            16..=29 => return self.message(sender, id, &payload),
            30..=39 => {
                let len = payload.len() + 1 + self.random.below(MOST_PAYLOAD - ITEM_BYTES);
                payload.resize(len, 0xEE);
                return self.message(sender, id, &payload);
            }
            _ => {}
        }
        self.send(sender, id, &payload);
    }

    pub fn some_station(&mut self) -> Station {
        self.random.of(&STATIONS)
    }

    /// A station that does not upload this kind.
    fn another_station(&mut self, kind: usize) -> Station {
        let uploads = self.drone.plans[kind].upload.map(|upload| upload.station);
        loop {
            let station = self.some_station();
            if Some(station) != uploads {
                return station;
            }
        }
    }

    /// A kind, as often as its plans have items, and mostly one that passes a test.
    fn kind_by_size(&mut self, passes: fn(&Plan) -> bool) -> usize {
        let mut kind = FLIGHT;
        for _ in 0..4 {
            kind = match self.random.below(352) {
                0..=255 => FLIGHT,
                256..=319 => FENCE,
                _ => RALLY,
            };
            if passes(&self.drone.plans[kind]) {
                break;
            }
        }
        kind
    }

    fn some_timer(&mut self) {
        let kind = if self.random.one_in(100) { 3 } else { self.random.below(KINDS) as u8 };
        self.timer(kind);
    }

    fn some_set_current(&mut self) {
        let length = usize::from(self.drone.plans[FLIGHT].length);
        let past = length == 0 || self.random.one_in(5);
        let seq = if past { length + self.random.below(300) } else { self.random.below(length) };
        let [s0, s1] = (seq as u16).to_le_bytes();
        let sender = self.some_station();
        self.send_somehow(sender, SET_CURRENT, &[s0, s1, OWN.system, OWN.component], 2);
    }

    fn some_request_list(&mut self) {
        let kind = if self.random.one_in(100) { 3 } else { self.random.below(KINDS) as u8 };
        let sender = self.some_station();
        self.send_somehow(sender, REQUEST_LIST, &[OWN.system, OWN.component, kind], 0);
    }

    fn is_quiet(&self, kind: usize) -> bool {
        self.made() < self.quiet[kind]
    }

    fn is_changing(&self, kind: usize) -> bool {
        self.made() < self.changing[kind]
    }

    /// A kind, and who starts an upload of it: in a quiet kind the station whose upload runs, else another one.
    fn some_starter(&mut self) -> (usize, Station) {
        let kind = self.random.below(KINDS);
        let own = self.is_quiet(kind) || self.random.one_in(5_000);
        let sender = match self.expected(kind) {
            Some((station, _)) if own => station,
            _ => self.another_station(kind),
        };
        (kind, sender)
    }

    /// Starts an upload of full size of an idle kind whose plan may be replaced. While one runs, other stations are denied; in a quiet kind plans are emptied, short
    /// ones are begun, and their stations begin again.
    fn some_count(&mut self) {
        let (kind, sender) = self.some_starter();
        let size = usize::from(SIZES[kind]);
        let count = match self.random.below(10) {
            0..=9 if self.is_changing(kind) => size + 1 + self.random.below(400),
            0 => 0,
            1 => size + 1 + self.random.below(400),
            2..=9 if self.is_quiet(kind) => 1 + self.random.below(4),
            _ => size,
        };
        let shown = if self.random.one_in(100) { 7 } else { kind as u8 };
        let [c0, c1] = (count as u16).to_le_bytes();
        let payload = [c0, c1, OWN.system, OWN.component, shown, 5, 0, 0, 0];
        self.send_somehow(sender, COUNT, &payload, 2);
        if self.expected(kind) == Some((sender, 0)) {
            let mut items = plan(&mut self.random, kind, count);
            if kind == FENCE && count > 0 && self.random.one_in(20) {
                items[count - 1] = item(FENCE, count - 1, 5001, 3, [4.0, 0.0, 0.0, 0.0]);
            }
            self.started(sender, kind, items);
        }
    }

    /// Starts a change of a few items of an idle kind's plan. While an upload runs, other stations are denied; in a quiet kind the station itself begins to change
    /// items, whole uploads then ending. Some ranges are not in the plan.
    fn some_change(&mut self) {
        let (kind, sender) = self.some_starter();
        let length = usize::from(self.drone.plans[kind].length);
        let start = self.random.below(length.max(1));
        let end = (start + self.random.below(4)).min(length.max(1) - 1);
        let ends = match self.random.below(20) {
            0 => (end as i16 + 1, end as i16),
            1 => (start as i16, length as i16),
            2 => (-1, end as i16),
            _ => (start as i16, end as i16),
        };
        let shown = if self.random.one_in(100) { 5 } else { kind as u8 };
        self.send_somehow(sender, WRITE_PARTIAL_LIST, &change(ends, shown), 4);
        if self.expected(kind) == Some((sender, 0)) && length > 0 {
            let items = (start..=end).map(|seq| self.elsewhere(kind, seq)).collect();
            self.started(sender, kind, items);
        }
    }

    /// An item of a plan at another place; one in ten is another item of the kind.
    fn elsewhere(&mut self, kind: usize, seq: usize) -> Payload {
        if self.random.one_in(10) {
            let length = usize::from(self.drone.plans[kind].length);
            return plan(&mut self.random, kind, length)[seq];
        }
        let mut item = self.drone.stored(kind, seq);
        item[32..34].copy_from_slice(&[OWN.system, OWN.component]);
        item[16..20].copy_from_slice(&(self.random.below(900_000_000) as i32).to_le_bytes());
        item
    }

    /// Clears quiet kinds; else mostly denied, since another station uploads a kind that is covered.
    fn some_clear_all(&mut self) {
        let kind = self.random.below(KINDS);
        let own =
            if self.is_quiet(kind) { self.random.one_in(6) } else { self.random.one_in(5_000) };
        let sender = match self.expected(kind) {
            Some((station, _)) if own => station,
            None if !own => return self.clear_all_denied(),
            _ => self.another_station(kind),
        };
        let shown = if self.random.one_in(100) { 3 } else { kind as u8 };
        self.send_somehow(sender, CLEAR_ALL, &[OWN.system, OWN.component, shown], 0);
    }

    fn clear_all_denied(&mut self) {
        let Some(kind) = (0..KINDS).find(|kind| self.expected(*kind).is_some()) else {
            return self.some_request_list();
        };
        let sender = self.another_station(kind);
        let shown = if self.random.one_in(3) { kind as u8 } else { ALL_KINDS };
        self.send_somehow(sender, CLEAR_ALL, &[OWN.system, OWN.component, shown], 0);
    }

    /// A good result from a station that uploads, or a bad one from another; a bad one from the station itself is rare.
    fn some_ack(&mut self) {
        let kind = self.random.below(KINDS);
        let (sender, result) = match self.expected(kind) {
            Some((station, _)) if self.is_quiet(kind) || self.random.one_in(5_000) => (station, 1),
            Some((station, _)) if self.random.one_in(2) => (station, 0),
            _ => (self.another_station(kind), 1 + self.random.below(255) as u8),
        };
        let shown = if self.random.one_in(100) { 3 } else { kind as u8 };
        let payload = [OWN.system, OWN.component, result, shown, 0, 0, 0, 0];
        self.send_somehow(sender, ACK, &payload, 0);
    }

    fn some_request_int(&mut self) {
        let kind = self.kind_by_size(|plan| plan.length > 0);
        let length = usize::from(self.drone.plans[kind].length);
        let past = length == 0 || self.random.one_in(20);
        let seq = if past { length + self.random.below(300) } else { self.random.below(length) };
        let [s0, s1] = (seq as u16).to_le_bytes();
        let shown = if self.random.one_in(100) { 3 } else { kind as u8 };
        let sender = self.some_station();
        self.send_somehow(sender, REQUEST_INT, &[s0, s1, OWN.system, OWN.component, shown], 2);
    }

    /// Mostly the item that an upload expects; some are out of turn, some another station's, and few are invalid but in a quiet kind. After a whole upload of full
    /// size its kind may be quiet for a while, or its plan only changed.
    fn some_item(&mut self) {
        let kind = self.kind_by_size(|plan| plan.upload.is_some());
        let Some((station, taken)) = self.expected(kind) else {
            let sender = self.some_station();
            return self.send_somehow(sender, ITEM_INT, &item(kind, 0, 16, 3, [0.0; 4]), 32);
        };
        let expected = self.uploads[kind][taken];
        let other = self.random.of(&self.uploads[kind]);
        let (sender, sent) = match self.random.below(5_000) {
            0 => (station, changed(&mut self.random, expected)),
            1..=100 if other != expected => (station, other),
            101..=200 if other != expected => (station, changed(&mut self.random, other)),
            201..=300 => (self.another_station(kind), expected),
            301..=3_000 if self.is_quiet(kind) => (station, changed(&mut self.random, expected)),
            _ => (station, expected),
        };
        let whole = self.drone.plans[kind].upload.is_some_and(|upload| !upload.partial);
        self.send_somehow(sender, ITEM_INT, &sent, 32);
        if whole && self.expected(kind).is_none() && !self.is_quiet(kind) {
            match self.random.below(4) {
                0 | 1 => self.quiet[kind] = self.made() + self.random.below(2_000),
                2 => self.changing[kind] = self.made() + self.random.below(2_000),
                _ => {}
            }
        }
    }
}
