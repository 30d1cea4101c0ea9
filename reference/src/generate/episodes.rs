//! Episodes: each drives the service into one part of its rules for some calls.

use super::home::HOME_EPISODES;
use super::{values, Generator};
use crate::fault::Fault;
use crate::layout::*;
use crate::limits::*;
use crate::script::{field, record, Record};
use crate::state::Upload;

pub(super) type Episode = fn(&mut Generator);

const EPISODES: &[(usize, Episode)] = &[
    (24, Generator::small_upload),
    (2, Generator::full_upload),
    (72, Generator::edge_items),
    (14, Generator::fence_upload),
    (14, Generator::fly),
    (8, Generator::fly_loop),
    (4, Generator::many_jumps),
    (10, Generator::expiries),
    (6, Generator::counts),
    (24, Generator::partial_upload),
    (12, Generator::ranges),
    (16, Generator::edge_changes),
    (12, Generator::change_jumps),
    (12, Generator::change_fence),
    (12, Generator::change_on_the_way),
    (2, Generator::change_full_plan),
    (10, Generator::host_writes_change),
    (8, Generator::poke_change),
    (8, Generator::refusals),
    (8, Generator::out_of_range),
    (12, Generator::bad_uploads),
    (6, Generator::poke_in_range),
    (4, Generator::poke_number),
    (12, Generator::host_writes_plan),
    (6, Generator::host_writes_upload),
    (3, Generator::write_ends),
    (14, Generator::move_plans),
    (5, Generator::any_download),
    (6, Generator::clears),
    (8, Generator::random_messages),
    (2, Generator::restart),
];

/// Plans with fewer items together are dumped often.
const SMALL_DUMP: u16 = 40;

impl Generator {
    /// One episode, sometimes with the store compared or dumped afterwards.
    pub(super) fn episode(&mut self) {
        if self.random.chance(1, 6) {
            self.snap();
        }
        let of_home = self.of_home && self.random.chance(1, 2);
        let episodes = if of_home { HOME_EPISODES } else { EPISODES };
        let episode = self.random.weighted(episodes);
        episode(self);
        if self.random.chance(1, 6) {
            self.compare();
        }
        self.maybe_dump(1, 3);
    }

    /// A dump, less often if it is long.
    pub(super) fn maybe_dump(&mut self, of: usize, outof: usize) {
        let taken = |upload: Upload| upload.next - upload.first;
        let shown = |kind| self.length(kind) + self.upload(kind).map_or(0, taken);
        let long = (0..KINDS).map(shown).sum::<u16>() >= SMALL_DUMP;
        if self.random.chance(of, outof) && (!long || self.random.chance(1, 10)) {
            self.dump();
        }
    }

    /// Starts an upload of planned items, mostly from the station that uploads.
    pub(super) fn start(&mut self, kind: usize, items: Vec<Item>) {
        let station = match self.random.chance(1, 12) {
            true => self.any_station(),
            false => self.uploader(kind),
        };
        self.send_count(station, kind as u8, items.len() as u16);
        self.planned[kind] = self.mostly_homed(kind, items);
    }

    /// Goes on with an upload to its end; every `calm` calls or so something
    /// else happens.
    pub(super) fn go_on(&mut self, kind: usize, calm: usize, harsh: bool) {
        while self.more() && self.upload(kind).is_some() {
            if !self.random.chance(1, calm) {
                self.send_expected(kind);
                continue;
            }
            match harsh {
                true => self.any_noise(kind),
                false => self.gentle_noise(kind),
            }
            self.maybe_dump(1, 12);
        }
    }

    /// Uploads a plan with little in between.
    pub(super) fn upload_plan(&mut self, kind: usize, items: Vec<Item>) {
        self.start(kind, items);
        self.go_on(kind, 12, false);
    }

    fn small_upload(&mut self) {
        let kind = self.any_kind();
        let most = usize::from(PLAN_SIZE[kind]).min(12);
        let count = self.random.within(1, most) as u16;
        let jumps = self.random.below(4);
        let items = values::plan(&mut self.random, kind, count, jumps);
        self.start(kind, items);
        if self.random.chance(1, 8) {
            return;
        }
        let calm = self.random.pick(&[2, 3, 6]);
        let harsh = self.random.chance(1, 2);
        self.go_on(kind, calm, harsh);
        if self.random.chance(1, 4) {
            self.repeat_last(kind);
        }
    }

    /// The last item once more, after the plan was replaced.
    fn repeat_last(&mut self, kind: usize) {
        let last = self.length(kind).saturating_sub(1);
        let item = values::valid_item(&mut self.random, kind, last, 2);
        let station = self.uploader(kind);
        self.send_item(station, item);
    }

    fn full_upload(&mut self) {
        let kind = self.random.weighted(&[(1, FLIGHT), (2, FENCE), (2, RALLY)]);
        let jumps = self.random.pick(&[0, 3, MAX_JUMPS]);
        let items = values::plan(&mut self.random, kind, PLAN_SIZE[kind], jumps);
        self.start(kind, items);
        let calm = self.random.pick(&[8, 40]);
        self.go_on(kind, calm, false);
        for _ in 0..4 {
            self.any_request(kind);
        }
        if self.random.chance(1, 3) {
            self.dump();
        }
        if kind == FLIGHT {
            self.search_some(6);
        }
    }

    /// Small uploads in which an item at the edges comes up.
    fn edge_items(&mut self) {
        let kind = self.random.weighted(&[(6, FLIGHT), (4, FENCE), (2, RALLY)]);
        for _ in 0..self.random.within(2, 5) {
            let count = self.random.weighted(&[(4, 1), (4, 2), (1, 3), (1, 4)]);
            let items = values::plan(&mut self.random, kind, count, 1);
            let edge = self.random.below(usize::from(count));
            self.start(kind, items);
            for _ in 0..edge {
                self.send_expected(kind);
            }
            self.expected_edge_item(kind);
            self.go_on(kind, 20, false);
            if self.random.chance(1, 3) {
                let station = self.any_station();
                self.send_request_int(station, edge as u16, kind as u8);
            }
        }
    }

    fn fence_upload(&mut self) {
        let largest = self.random.weighted(&[(8, 9), (2, 20), (1, 64)]);
        let count = self.random.within(1, largest) as u16;
        let mut items = values::plan(&mut self.random, FENCE, count, 0);
        for _ in 0..self.random.pick(&[0, 1, 1, 2]) {
            values::spoil_fence(&mut self.random, &mut items);
        }
        self.upload_plan(FENCE, items);
        let station = self.any_station();
        self.send_request_list(station, FENCE as u8);
    }

    /// A plan with jumps, flown with some changes on the way.
    fn fly(&mut self) {
        let count = self.random.within(2, 9) as u16;
        let jumps = self.random.within(1, 4);
        let items = values::plan(&mut self.random, FLIGHT, count, jumps);
        self.upload_plan(FLIGHT, items);
        self.search_some(14);
    }

    pub(super) fn search_some(&mut self, most: usize) {
        for _ in 0..self.random.within(1, most) {
            match self.random.below(16) {
                0 => self.any_set_current(FLIGHT),
                1 => self.any_request(FLIGHT),
                2 => self.maybe_dump(1, 1),
                _ => self.done(),
            }
        }
    }

    fn fly_loop(&mut self) {
        let before = usize::from(self.state().home);
        let items = values::jump_loop(&mut self.random, before);
        self.upload_plan(FLIGHT, items);
        self.done();
        self.maybe_dump(1, 2);
        self.any_set_current(FLIGHT);
        self.search_some(4);
    }

    /// Fifteen or sixteen jumps.
    fn many_jumps(&mut self) {
        let count = self.random.within(MAX_JUMPS + 2, 24) as u16;
        let jumps = self.random.pick(&[MAX_JUMPS - 1, MAX_JUMPS, MAX_JUMPS + 1]);
        let items = values::plan(&mut self.random, FLIGHT, count, jumps);
        self.upload_plan(FLIGHT, items);
        self.search_some(14);
    }

    /// Timer calls on a running upload, with items in between.
    fn expiries(&mut self) {
        let kind = self.any_kind();
        match self.upload(kind) {
            Some(_) => {}
            None if self.random.chance(1, 2) => {
                self.start_some_change(kind);
                self.send_expected(kind);
            }
            None => {
                let items = values::plan(&mut self.random, kind, 4, 1);
                self.start(kind, items);
            }
        }
        if self.random.chance(1, 3) {
            self.jump_clock(kind);
        }
        let only_timers = self.random.chance(1, 2);
        for _ in 0..self.random.within(5, 16) {
            match self.random.below(10) {
                0 => self.maybe_dump(1, 1),
                1 if !only_timers => self.send_expected(kind),
                2 | 3 if !only_timers => self.gentle_noise(kind),
                _ => self.any_timer(kind),
            }
        }
    }

    /// Counts of the uploading station, one after another.
    fn counts(&mut self) {
        let kind = self.any_kind();
        for _ in 0..self.random.within(2, 6) {
            match self.random.below(5) {
                0 => self.send_expected(kind),
                1 => self.own_change(kind),
                _ => self.own_count(kind),
            }
        }
        self.any_request(kind);
    }

    /// Refused calls, which leave state and store as they were.
    fn refusals(&mut self) {
        let kind = self.any_kind();
        self.snap();
        for _ in 0..self.random.within(2, 6) {
            match self.random.below(6) {
                0 => self.refused_timer(),
                1 => self.refused_done(),
                2 => self.short_move(),
                _ => self.refused_message(kind),
            }
        }
        self.compare();
        self.maybe_dump(1, 2);
    }

    fn refused_timer(&mut self) {
        let kind = self.random.pick(&[0, 1, 2, 3, 9, 255]);
        let (store, reply) = (self.store_length(), self.reply_length());
        let clock = self.clock.wrapping_add(EXPIRY_MS);
        let b = [0, 0, 0, 0, kind];
        let mut record = Record { b, clock, store, reply, ..Record::of(record::TIMER) };
        self.spoil_call(&mut record);
        self.emit(record);
    }

    fn refused_done(&mut self) {
        let mut record = Record { store: self.store_length(), ..Record::of(record::DONE) };
        if self.random.chance(3, 4) {
            record.store = STORE_WORDS as u32 - 1;
        }
        self.emit(record);
    }

    /// Pokes one number out of its range, makes calls, and pokes it back.
    fn out_of_range(&mut self) {
        let kind = self.any_kind();
        let before = self.state().clone();
        let size = PLAN_SIZE[kind];
        let jump = self.random.below(MAX_JUMPS);
        let chosen = self.random.below(4);
        match chosen {
            0 => {
                let length = self.random.pick(&[size + 1, u16::MAX]);
                self.poke_length(kind, length);
            }
            1 => {
                let upload = self.bad_upload(kind);
                self.poke_upload(kind, Some(upload));
            }
            2 => {
                let current = self.random.pick(&[3, 300, u32::from(u16::MAX)]);
                self.poke(field::CURRENT, 0, current);
            }
            _ => {
                let runs = self.random.pick(&[32768, 65535]);
                self.poke(field::JUMP_COUNT, jump, runs);
            }
        }
        self.calls_in_bad_state(kind);
        match chosen {
            0 => self.poke_length(kind, before.plans[kind].length),
            1 => self.poke_upload(kind, before.plans[kind].upload),
            2 => self.poke(field::CURRENT, 0, u32::from(before.current)),
            _ => self.poke(field::JUMP_COUNT, jump, u32::from(before.jump_counts[jump])),
        }
        self.ensure_range();
        self.maybe_dump(1, 2);
    }

    /// Uploads out of range, one after another, with calls that they hinder.
    fn bad_uploads(&mut self) {
        let kind = self.any_kind();
        self.ensure_plan(kind);
        let before = self.upload(kind);
        for _ in 0..self.random.within(2, 6) {
            let bad = self.bad_upload(kind);
            self.poke_upload(kind, Some(bad));
            match self.random.below(4) {
                0 => self.dump(),
                1 => self.any_timer(kind),
                2 => self.move_in_bad_state(),
                _ => self.any_request(kind),
            }
        }
        self.poke_upload(kind, before);
    }

    /// An upload with a number out of its range, whole or partial.
    pub(super) fn bad_upload(&mut self, kind: usize) -> Upload {
        if self.random.chance(1, 2) {
            return self.bad_change(kind);
        }
        let (size, good) = (PLAN_SIZE[kind], self.good_whole(kind));
        let far = self.random.pick(&[good.count, size, u16::MAX]);
        match self.random.below(7) {
            0 => Upload { repeats: good.repeats, ..Upload::whole(good.station, 0, good.start) },
            1 => Upload { count: size + 1, last: size, ..good },
            2 => Upload { next: good.count, ..good },
            3 => Upload { first: self.random.pick(&[1, good.last.max(1), far]), ..good },
            4 => Upload { last: good.last.wrapping_sub(1), ..good },
            5 => Upload { last: far, ..good },
            _ => Upload { repeats: self.random.pick(&[6, 255]), ..good },
        }
    }

    /// An upload whose numbers are in range, whole or partial.
    pub(super) fn good_upload(&mut self, kind: usize) -> Upload {
        let change = if self.random.chance(1, 2) { self.good_change(kind) } else { None };
        change.unwrap_or_else(|| self.good_whole(kind))
    }

    fn good_whole(&mut self, kind: usize) -> Upload {
        let most = self.random.pick(&[4, PLAN_SIZE[kind]]);
        let count = self.random.within(1, usize::from(most)) as u16;
        Upload {
            next: self.random.below(usize::from(count)) as u16,
            repeats: self.random.within(0, 5) as u8,
            ..Upload::whole(self.any_station(), count, self.clock)
        }
    }

    fn calls_in_bad_state(&mut self, kind: usize) {
        self.snap();
        for _ in 0..self.random.within(1, 5) {
            match self.random.below(8) {
                0 => self.dump(),
                1 => self.any_timer(kind),
                2 => self.done(),
                3 => self.refused_message(kind),
                4 => self.refused_timer(),
                5 | 6 => self.move_in_bad_state(),
                _ => self.any_request(kind),
            }
        }
        self.compare();
    }

    /// Pokes the progress back into its range, and ends uploads, if need be.
    pub(super) fn ensure_range(&mut self) {
        if !self.state().in_range(Fault::None) {
            self.poke(field::CURRENT, 0, 0);
        }
        for kind in 0..KINDS {
            if !self.state().in_range(Fault::None) && self.upload(kind).is_some() {
                self.poke_upload(kind, None);
            }
        }
        if !self.state().in_range(Fault::None) {
            self.fresh();
        }
    }

    fn poke_in_range(&mut self) {
        let kind = self.any_kind();
        let size = PLAN_SIZE[kind];
        match self.random.below(6) {
            0 => {
                let small = self.random.within(0, 6) as u16;
                let length = self.random.weighted(&[(4, small), (1, size), (1, size - 1)]);
                self.poke_length(kind, length);
            }
            1 => {
                let half = self.random.below(2) as u8;
                self.poke_half(kind, half);
            }
            2 => {
                let upload = self.good_upload(kind);
                self.poke_with_items(kind, upload);
            }
            3 => self.poke_upload(kind, None),
            4 => self.poke_progress(),
            _ => {
                let jump = self.random.below(3);
                let runs = self.random.pick(&[0, 1, 2, 3, 32766, 32767]);
                self.poke(field::JUMP_COUNT, jump, runs);
            }
        }
        self.ensure_range();
        self.search_some(4);
        self.any_request(kind);
        if self.random.chance(1, 2) {
            self.go_on(kind, 5, true);
        }
    }

    /// Pokes an upload, and mostly writes the items that it took.
    pub(super) fn poke_with_items(&mut self, kind: usize, upload: Upload) {
        let items = values::plan(&mut self.random, kind, upload.count, 2);
        self.poke_upload(kind, Some(upload));
        let shelf = self.state().upload_shelf(kind);
        if self.random.chance(2, 3) {
            let taken = usize::from(upload.first)..usize::from(upload.next);
            self.write_items(shelf, upload.first, &items[taken]);
        }
        self.planned[kind] = items;
    }

    pub(super) fn poke_progress(&mut self) {
        let length = usize::from(self.length(FLIGHT));
        let current = self.random.below(length.max(1)) as u32;
        self.poke(field::CURRENT, 0, current);
        let begun = self.random.below(2) as u32;
        self.poke(field::BEGUN, 0, begun);
    }

    /// A plan number near the end of its range, then an upload.
    fn poke_number(&mut self) {
        let kind = self.any_kind();
        let number = self.random.pick(&[u32::MAX, u32::MAX - 1, 0, 1 << 31]);
        self.poke(field::NUMBER, kind, number);
        self.any_request(kind);
        let items = values::plan(&mut self.random, kind, 1, 0);
        self.upload_plan(kind, items);
        let station = self.any_station();
        self.send_request_list(station, kind as u8);
        self.any_set_current(kind);
    }

    fn any_download(&mut self) {
        let kind = self.any_kind();
        self.download(kind);
    }

    /// Reads a plan whole, and past its end.
    pub(super) fn download(&mut self, kind: usize) {
        let station = self.any_station();
        self.send_request_list(station, kind as u8);
        for seq in 0..=self.length(kind).min(20) {
            self.send_request_int(station, seq, kind as u8);
        }
    }

    fn clears(&mut self) {
        for _ in 0..self.random.within(1, 3) {
            let kind = self.any_kind();
            let station = match self.random.chance(1, 2) {
                true => self.any_station(),
                false => self.uploader(kind),
            };
            match self.random.below(3) {
                0 => self.send_count(station, kind as u8, 0),
                1 => self.send_clear(station, kind as u8),
                _ => self.send_clear(station, ALL_KINDS),
            }
            match self.random.below(3) {
                0 => self.maybe_dump(1, 1),
                1 => self.done(),
                _ => self.any_request(kind),
            }
        }
    }

    /// Payloads at random, mostly with an id that is read.
    fn random_messages(&mut self) {
        for _ in 0..self.random.within(1, 6) {
            let any = self.random.word();
            let read = self.random.pick(&READ_IDS);
            let id = self.random.weighted(&[(12, read), (1, any & 0x3FF), (1, any)]);
            let len =
                self.random.weighted(&[(1, 0), (2, 1), (4, 3), (4, 5), (3, 8), (3, 38), (1, 60)]);
            let byte_limit = self.random.pick(&[2, 3, 4, 256]);
            let payload = (0..len).map(|_| self.random.below(byte_limit) as u8).collect();
            let sender = self.any_station();
            let record = self.message(sender, id, payload);
            self.emit(record);
        }
    }

    fn restart(&mut self) {
        self.fresh();
        self.done();
        self.any_set_current(FLIGHT);
        self.maybe_dump(1, 2);
    }
}
