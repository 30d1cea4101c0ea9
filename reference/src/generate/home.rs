//! Home in item 0 (request M-109): items of all kinds at place 0, jumps to it,
//! short plans that are chosen from and flown, what a host writes at item 0, and
//! what must leave the setting.

use super::episodes::Episode;
use super::{values, Generator};
use crate::layout::Item;
use crate::limits::*;
use crate::script::field;

pub(super) const HOME_EPISODES: &[(usize, Episode)] = &[
    (14, Generator::items_at_0),
    (12, Generator::changes_of_0),
    (14, Generator::jumps_home),
    (12, Generator::short_plans),
    (8, Generator::fly_from_home),
    (10, Generator::host_writes_home),
    (6, Generator::host_jumps_at_0),
    (8, Generator::sixteen_with_0),
    (10, Generator::endings_of_plans),
];

/// Items of a plan of home, so many jumps and two items behind them.
fn jumps_behind_home(jumps: usize) -> usize {
    1 + jumps + 2
}

impl Generator {
    /// A flight plan with home in item 0 and no jump to it, if there is home;
    /// some are left as they are.
    pub(super) fn mostly_homed(&mut self, kind: usize, mut items: Vec<Item>) -> Vec<Item> {
        if self.state().home && kind == FLIGHT && self.random.chance(9, 10) {
            values::put_home(&mut self.random, &mut items);
        }
        items
    }

    /// Sends an item of any kind at place 0, where the running upload expects it, and goes on
    /// with the upload.
    fn bring_item_0(&mut self, count: u16) {
        let item = values::at_0(&mut self.random, count);
        let station = self.uploader(FLIGHT);
        self.send_item(station, item);
        self.go_on(FLIGHT, 20, false);
    }

    /// Uploads a flight plan of so many items, some of them jumps.
    fn upload_flight(&mut self, count: u16) {
        let jumps = self.random.below(3);
        let items = values::plan(&mut self.random, FLIGHT, count, jumps);
        self.upload_plan(FLIGHT, items);
    }

    /// A few calls that tell where the flight is and goes on.
    fn look_home(&mut self, most: usize) {
        for _ in 0..self.random.within(1, most) {
            let station = self.any_station();
            match self.random.below(8) {
                0 | 1 => self.send_set_current(station, 0),
                2 => {
                    let seq = self.random.pick(&[1, 1, 2, u16::MAX]);
                    self.send_set_current(station, seq);
                }
                3 => {
                    let seq = self.random.pick(&[0, 0, 1]);
                    self.send_request_int(station, seq, FLIGHT as u8);
                }
                4 => self.maybe_dump(1, 1),
                _ => self.done(),
            }
        }
    }

    /// Small uploads with an item of any kind at place 0.
    fn items_at_0(&mut self) {
        for _ in 0..self.random.within(2, 5) {
            let count = self.random.within(1, 3) as u16;
            let items = values::plan(&mut self.random, FLIGHT, count, 1);
            self.start(FLIGHT, items);
            self.bring_item_0(count);
        }
        self.look_home(3);
    }

    /// The same in partial uploads from item 0 on.
    fn changes_of_0(&mut self) {
        for _ in 0..self.random.within(2, 4) {
            self.ensure_plan(FLIGHT);
            let length = self.length(FLIGHT);
            if length == 0 {
                return;
            }
            let last = self.random.below(usize::from(length.min(3))) as u16;
            let items = values::plan(&mut self.random, FLIGHT, length, 1);
            self.start_change(FLIGHT, (0, last), items);
            self.bring_item_0(length);
        }
        self.look_home(3);
    }

    /// Uploads, whole and partial, with a jump to 0 or beside it on the way, or as the
    /// sixteenth.
    fn jumps_home(&mut self) {
        for _ in 0..self.random.within(2, 4) {
            let before = match self.random.chance(1, 6) {
                true => self.start_with_jumps(MAX_JUMPS),
                false => {
                    let count = self.random.within(2, 6) as u16;
                    let items = values::plan(&mut self.random, FLIGHT, count, 0);
                    self.start(FLIGHT, items);
                    self.random.below(usize::from(count))
                }
            };
            if self.random.chance(1, 3) {
                self.go_on(FLIGHT, 30, false);
                self.start_some_change(FLIGHT);
            }
            for _ in 0..before {
                self.send_expected(FLIGHT);
            }
            if let Some(upload) = self.upload(FLIGHT) {
                let jump = values::jump_home(&mut self.random, upload.next, upload.count);
                self.send_item(upload.station, jump);
            }
            self.go_on(FLIGHT, 20, false);
        }
        self.look_home(4);
    }

    /// Starts an upload of home, jumps and two items; answers how many come before these.
    fn start_with_jumps(&mut self, jumps: usize) -> usize {
        let count = jumps_behind_home(jumps);
        let mut items = values::plan(&mut self.random, FLIGHT, count as u16, 0);
        for number in 1..=jumps {
            let repeat = self.random.pick(&[0, 0x3F80_0000]);
            items[number] = values::jump_to(&mut self.random, number as u16, count - 1, repeat);
        }
        self.start(FLIGHT, items);
        1 + jumps
    }

    /// Plans of no item, of home alone and of one item more, chosen from and flown.
    fn short_plans(&mut self) {
        for _ in 0..self.random.within(1, 3) {
            match self.random.below(4) as u16 {
                0 => self.empty_flight(),
                count => self.upload_flight(count),
            }
            self.look_home(6);
            if self.random.chance(1, 2) {
                self.poke(field::CURRENT, 0, 0);
                let begun = self.random.below(2) as u32;
                self.poke(field::BEGUN, 0, begun);
                self.look_home(3);
            }
        }
    }

    /// Empties the flight plan, by a clear of it or of all, or by a count.
    fn empty_flight(&mut self) {
        let station = self.uploader(FLIGHT);
        match self.random.below(3) {
            0 => self.send_clear(station, FLIGHT as u8),
            1 => self.send_clear(station, ALL_KINDS),
            _ => self.send_count(station, FLIGHT as u8, 0),
        }
    }

    /// A plan flown from its start, and again from item 0, begun or not.
    fn fly_from_home(&mut self) {
        let count = self.random.within(2, 7) as u16;
        self.upload_flight(count);
        for begun in [0, 1] {
            self.search_some(6);
            if self.random.chance(1, 2) {
                self.poke(field::CURRENT, 0, 0);
                self.poke(field::BEGUN, 0, begun);
            }
        }
        self.look_home(4);
    }

    /// A host writes over item 0, or a jump to 0 elsewhere.
    fn host_writes_home(&mut self) {
        let count = self.random.within(1, 6) as u16;
        self.upload_flight(count);
        let (shelf, length) = (self.state().plan_shelf(FLIGHT), self.length(FLIGHT));
        if length == 0 {
            return;
        }
        let elsewhere = self.random.below(usize::from(length)) as u16;
        match self.random.below(4) {
            0 => self.write_over(shelf, 0, length),
            1 => {
                let item = values::at_0(&mut self.random, length);
                self.write_items(shelf, 0, &[item]);
            }
            _ => {
                let jump = values::jump_home(&mut self.random, elsewhere, length);
                self.write_items(shelf, elsewhere, &[jump]);
            }
        }
        let station = self.any_station();
        self.send_set_current(station, elsewhere);
        self.look_home(8);
    }

    /// A host makes item 0 a jump; the counts of those behind it tell.
    fn host_jumps_at_0(&mut self) {
        let count = self.random.within(3, 7) as u16;
        let jumps = self.random.within(1, 3);
        let items = values::plan(&mut self.random, FLIGHT, count, jumps);
        self.upload_plan(FLIGHT, items);
        let (shelf, length) = (self.state().plan_shelf(FLIGHT), self.length(FLIGHT));
        if length > 1 {
            let jump = values::jump(&mut self.random, 0, length);
            self.write_items(shelf, 0, &[jump]);
        }
        self.search_some(8);
        self.dump();
    }

    /// Fifteen jumps of which a host wrote one at item 0, or sixteen: in a plan that is
    /// flown or changed, or among the items of an upload.
    fn sixteen_with_0(&mut self) {
        let jumps = self.random.pick(&[MAX_JUMPS - 1, MAX_JUMPS]);
        let behind = self.start_with_jumps(jumps);
        let in_upload = self.random.chance(1, 3);
        match in_upload {
            true => self.send_expected(FLIGHT),
            false => self.go_on(FLIGHT, 40, false),
        }
        let shelf = match in_upload {
            true => self.state().upload_shelf(FLIGHT),
            false => self.state().plan_shelf(FLIGHT),
        };
        let jump = values::jump_to(&mut self.random, 0, behind, 0);
        self.write_items(shelf, 0, &[jump]);
        self.go_on(FLIGHT, 40, false);
        if usize::from(self.length(FLIGHT)) != jumps_behind_home(jumps) {
            return;
        }
        if self.random.chance(1, 2) {
            let (behind, length) = (behind as u16, self.length(FLIGHT));
            let jump = values::jump(&mut self.random, behind, length);
            let other = values::without_jump(&mut self.random, FLIGHT, behind);
            let changed = self.random.pick(&[jump, jump, other]);
            let items = vec![changed; usize::from(length)];
            self.change(FLIGHT, (behind, behind), items);
        }
        let station = self.any_station();
        self.send_set_current(station, behind as u16 - 1);
        self.search_some(3);
    }

    /// What empties, replaces or moves the flight plan, and what then is told of home.
    fn endings_of_plans(&mut self) {
        match self.random.below(6) {
            0 => self.move_plans(),
            1 => {
                self.ensure_plan(FLIGHT);
                self.start_some_change(FLIGHT);
                self.go_on(FLIGHT, 12, false);
            }
            2 => self.upload_flight(2),
            _ => self.empty_flight(),
        }
        self.maybe_dump(1, 2);
        match self.random.chance(1, 2) {
            true => self.items_at_0(),
            false => self.short_plans(),
        }
    }
}
