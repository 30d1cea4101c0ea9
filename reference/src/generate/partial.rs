//! Partial uploads: ranges at the ends of a plan and past them, changes of every
//! kind of plan, and what a host writes meanwhile.

use super::{values, Generator};
use crate::items::DO_JUMP;
use crate::layout::Item;
use crate::limits::*;
use crate::state::Upload;

/// The numbers of the first and the last item that are changed.
type Span = (u16, u16);

/// Spans of longer plans are short.
const LONG_PLAN: u16 = 40;

impl Generator {
    /// A plan that can be changed, if its kind has none, and sometimes another.
    pub(super) fn ensure_plan(&mut self, kind: usize) {
        if self.length(kind) > 0 && !self.random.chance(1, 5) {
            return;
        }
        let most = self.random.pick(&[1, 4, 9]);
        let count = self.random.within(1, most) as u16;
        let jumps = self.random.below(4);
        let items = values::plan(&mut self.random, kind, count, jumps);
        self.upload_plan(kind, items);
    }

    /// The items of a plan as they stand in the store.
    fn standing(&self, kind: usize) -> Vec<Item> {
        let shelf = self.state().plan_shelf(kind);
        (0..self.length(kind)).map(|index| shelf.item(&self.mirror.stores.words, index)).collect()
    }

    /// A span of a plan that is not empty: one item, all, at an end, or between.
    fn span(&mut self, length: u16) -> Span {
        let last = length - 1;
        let one = self.random.below(usize::from(length)) as u16;
        if length > LONG_PLAN {
            let end = self.random.pick(&[0, last - 1, last, one]);
            return (end.saturating_sub(self.random.below(5) as u16), end);
        }
        let other = self.random.below(usize::from(length)) as u16;
        match self.random.below(8) {
            0 => (0, 0),
            1 => (last, last),
            2 => (0, last),
            3 => (0, one),
            4 => (one, last),
            5 => (one, one),
            _ => (one.min(other), one.max(other)),
        }
    }

    /// Start and end that are no span of a plan of this length.
    fn no_span(&mut self, length: u16) -> (i16, i16) {
        let inside = self.random.below(usize::from(length) + 1) as i16;
        let length = length as i16;
        let negative = self.random.pick(&[-1, -2, i16::MIN, i16::MIN + 1]);
        match self.random.below(9) {
            0 | 1 => (inside + 1, inside),
            2 => (inside, length),
            3 => (length, length),
            4 => (negative, inside),
            5 => (negative, length - 1),
            6 => (negative, negative),
            7 => (inside, negative),
            _ => (inside, i16::MAX),
        }
    }

    /// Start and end for a plan of the kind, of a span or of none.
    fn any_ends(&mut self, kind: usize) -> (i16, i16) {
        match self.length(kind) {
            length if length > 0 && self.random.chance(1, 2) => {
                let (first, last) = self.span(length);
                (first as i16, last as i16)
            }
            length => self.no_span(length),
        }
    }

    /// Starts a partial upload of planned items, mostly from the station that uploads.
    pub(super) fn start_change(&mut self, kind: usize, (first, last): Span, items: Vec<Item>) {
        let station = match self.random.chance(1, 12) {
            true => self.any_station(),
            false => self.uploader(kind),
        };
        self.send_change(station, kind as u8, (first as i16, last as i16));
        self.planned[kind] = self.mostly_homed(kind, items);
    }

    /// Starts a partial upload of valid items, if there is a plan; else sends one's start.
    pub(super) fn start_some_change(&mut self, kind: usize) {
        let length = self.length(kind);
        if length == 0 {
            return self.own_change(kind);
        }
        let span = self.span(length);
        let items = match kind {
            FENCE => self.changed_fence(span),
            _ => {
                let jumps = self.random.pick(&[0, 1, 3]);
                values::plan(&mut self.random, kind, length, jumps)
            }
        };
        self.start_change(kind, span, items);
    }

    /// A partial upload over a plan of any kind, with much or little in between.
    pub(super) fn partial_upload(&mut self) {
        let kind = self.any_kind();
        self.ensure_plan(kind);
        self.start_some_change(kind);
        if self.random.chance(1, 8) {
            return;
        }
        let calm = self.random.pick(&[2, 3, 6]);
        let harsh = self.random.chance(1, 2);
        let upload = self.upload(kind);
        self.go_on(kind, calm, harsh);
        self.look_beside(kind, upload);
    }

    /// Asks for the items at the ends of an upload's span, and for those beside them.
    fn look_beside(&mut self, kind: usize, upload: Option<Upload>) {
        let Upload { first, last, .. } = upload.unwrap_or_default();
        let station = self.any_station();
        for seq in [first.wrapping_sub(1), first, last, last.wrapping_add(1)] {
            if self.random.chance(1, 2) {
                self.send_request_int(station, seq, kind as u8);
            }
        }
        if self.random.chance(1, 3) {
            self.send_request_list(station, kind as u8);
        }
        self.maybe_dump(1, 3);
    }

    /// Changes a span with planned items to the end, and looks at what stands.
    pub(super) fn change(&mut self, kind: usize, span: Span, items: Vec<Item>) {
        self.start_change(kind, span, items);
        let upload = self.upload(kind);
        self.go_on(kind, 14, false);
        self.look_beside(kind, upload);
    }

    /// Spans and no spans of one station, one after another, with items between.
    pub(super) fn ranges(&mut self) {
        let kind = self.any_kind();
        self.ensure_plan(kind);
        for _ in 0..self.random.within(3, 8) {
            match self.random.below(6) {
                0 => self.send_expected(kind),
                1 => self.own_count(kind),
                2 => self.foreign_change(kind),
                _ => self.own_change(kind),
            }
        }
        self.any_timer(kind);
        self.any_request(kind);
    }

    /// A start of a partial upload by the station that uploads, of a span or of none.
    pub(super) fn own_change(&mut self, kind: usize) {
        let station = self.uploader(kind);
        let ends = self.any_ends(kind);
        self.send_change(station, kind as u8, ends);
    }

    /// The same by another station, while an upload runs.
    pub(super) fn foreign_change(&mut self, kind: usize) {
        let station = self.stranger(kind);
        let ends = self.any_ends(kind);
        if self.upload(kind).is_some() {
            self.send_change(station, kind as u8, ends);
        }
    }

    /// Partial uploads in which an item at the edges comes up.
    pub(super) fn edge_changes(&mut self) {
        let kind = self.random.weighted(&[(6, FLIGHT), (2, FENCE), (1, RALLY)]);
        for _ in 0..self.random.within(2, 4) {
            self.ensure_plan(kind);
            self.start_some_change(kind);
            let upload = self.upload(kind).unwrap_or_default();
            let ahead = usize::from(upload.last - upload.first);
            for _ in 0..self.random.below(ahead + 1) {
                self.send_expected(kind);
            }
            self.expected_edge_item(kind);
            self.go_on(kind, 20, false);
        }
        self.any_request(kind);
    }

    /// A plan with about fifteen jumps, of which changes put in, take out and move some.
    pub(super) fn change_jumps(&mut self) {
        let count = self.random.within(MAX_JUMPS + 2, 26) as u16;
        let jumps = self.random.pick(&[MAX_JUMPS - 2, MAX_JUMPS - 1, MAX_JUMPS, MAX_JUMPS]);
        let items = values::plan(&mut self.random, FLIGHT, count, jumps);
        self.upload_plan(FLIGHT, items);
        for _ in 0..self.random.within(2, 4) {
            let length = self.length(FLIGHT);
            if length < 2 {
                return;
            }
            let span = self.span(length);
            let items = self.moved_jumps(span);
            self.change(FLIGHT, span, items);
        }
        self.search_some(6);
    }

    /// Items in which the jumps of a span have other places, with some more or less at times.
    fn moved_jumps(&mut self, (first, last): Span) -> Vec<Item> {
        let mut items = self.standing(FLIGHT);
        let count = items.len() as u16;
        let span = &mut items[usize::from(first)..=usize::from(last)];
        let mut jumps: Vec<bool> = span.iter().map(|item| item.command == DO_JUMP).collect();
        jumps.reverse();
        for _ in 0..self.random.below(3) {
            let any = self.random.below(jumps.len());
            let other = jumps.iter().position(|jump| !jump).unwrap_or(any);
            let changed = self.random.pick(&[any, other]);
            jumps[changed] = self.random.chance(3, 4);
        }
        for (number, (item, jump)) in (first..).zip(span.iter_mut().zip(jumps)) {
            *item = match jump {
                true => values::jump(&mut self.random, number, count),
                false => values::without_jump(&mut self.random, FLIGHT, number),
            };
        }
        items
    }

    /// Changes of a fence that fits, or that a host broke and a change may mend.
    pub(super) fn change_fence(&mut self) {
        let count = self.random.within(3, 12) as u16;
        let good = values::plan(&mut self.random, FENCE, count, 0);
        self.upload_plan(FENCE, good.clone());
        if self.random.chance(1, 3) && self.length(FENCE) == count {
            let mut broken = good.clone();
            values::spoil_fence(&mut self.random, &mut broken);
            let shelf = self.state().plan_shelf(FENCE);
            self.write_items(shelf, 0, &broken);
        }
        for _ in 0..self.random.within(1, 3) {
            let length = self.length(FENCE);
            if length == 0 {
                return;
            }
            let span = self.span(length);
            let items = match length == count && self.random.chance(1, 3) {
                true => good.clone(),
                false => self.changed_fence(span),
            };
            self.change(FENCE, span, items);
        }
    }

    /// Items for a span of the fence: those that stand at other places, circles, one
    /// polygon, those of another fence, or some spoiled.
    fn changed_fence(&mut self, (first, last): Span) -> Vec<Item> {
        let mut items = self.standing(FENCE);
        let span = usize::from(first)..=usize::from(last);
        match self.random.below(6) {
            0 | 1 => items[span].iter_mut().for_each(|item| item.x = item.x.saturating_neg()),
            2 => {
                let circle = |item: &mut Item| {
                    *item = values::valid_item(&mut self.random, FENCE, item.seq, 1);
                };
                items[span].iter_mut().for_each(circle);
            }
            3 => values::one_polygon(&mut self.random, &mut items[span]),
            4 => items = values::plan(&mut self.random, FENCE, items.len() as u16, 0),
            _ => values::spoil_fence(&mut self.random, &mut items[span]),
        }
        items
    }

    /// A flight whose plan is changed on the way, often its current item.
    pub(super) fn change_on_the_way(&mut self) {
        let count = self.random.within(2, 9) as u16;
        let jumps = self.random.within(1, 3);
        let items = values::plan(&mut self.random, FLIGHT, count, jumps);
        self.upload_plan(FLIGHT, items);
        for _ in 0..self.random.within(1, 3) {
            self.search_some(8);
            let (length, current) = (self.length(FLIGHT), self.state().current);
            if length == 0 {
                return;
            }
            let any = self.span(length);
            let whole = (0, length - 1);
            let span = self.random.pick(&[(current, current), (current, length - 1), whole, any]);
            let jumps = self.random.pick(&[0, 1, 3]);
            let items = values::plan(&mut self.random, FLIGHT, length, jumps);
            self.change(FLIGHT, span, items);
        }
        self.search_some(8);
    }

    /// A plan of full size, changed at its ends.
    pub(super) fn change_full_plan(&mut self) {
        let kind = self.random.weighted(&[(1, FLIGHT), (2, FENCE), (2, RALLY)]);
        if self.length(kind) != PLAN_SIZE[kind] {
            let items = values::plan(&mut self.random, kind, PLAN_SIZE[kind], MAX_JUMPS);
            self.start(kind, items);
            self.go_on(kind, 40, false);
        }
        for _ in 0..self.random.within(2, 5) {
            self.start_some_change(kind);
            let upload = self.upload(kind);
            self.go_on(kind, 10, false);
            self.look_beside(kind, upload);
        }
    }

    /// A host writes items while they are changed: into the plan, inside the span and
    /// beside it, and into the other half.
    pub(super) fn host_writes_change(&mut self) {
        let kind = self.random.weighted(&[(4, FLIGHT), (3, FENCE), (1, RALLY)]);
        self.ensure_plan(kind);
        self.start_some_change(kind);
        let Some(upload) = self.upload(kind) else { return };
        for _ in 0..self.random.below(usize::from(upload.last - upload.first) + 1) {
            self.send_expected(kind);
        }
        let shelves = [self.state().plan_shelf(kind), self.state().upload_shelf(kind)];
        for _ in 0..self.random.within(1, 3) {
            let shelf = self.random.weighted(&[(2, shelves[0]), (1, shelves[1])]);
            let index = self.random.below(usize::from(upload.count)) as u16;
            self.write_over(shelf, index, upload.count);
        }
        if kind == FLIGHT && self.random.chance(1, 3) {
            self.write_many_jumps(shelves[0], upload.count);
        }
        self.maybe_dump(1, 2);
        self.go_on(kind, 12, false);
        self.look_beside(kind, Some(upload));
    }

    /// A record of a partial upload that a host wrote, sometimes with the items taken.
    pub(super) fn poke_change(&mut self) {
        let kind = self.any_kind();
        self.ensure_plan(kind);
        if let Some(upload) = self.good_change(kind) {
            self.poke_with_items(kind, upload);
            self.maybe_dump(1, 2);
            self.go_on(kind, 6, false);
            self.look_beside(kind, Some(upload));
        }
    }

    /// The numbers of a partial upload over the kind's plan, if there is one.
    pub(super) fn good_change(&mut self, kind: usize) -> Option<Upload> {
        let length = self.length(kind);
        if length == 0 || length > PLAN_SIZE[kind] {
            return None;
        }
        let (first, last) = self.span(length);
        let next = self.random.within(usize::from(first), usize::from(last)) as u16;
        let repeats = self.random.within(0, usize::from(MAX_REPEATS)) as u8;
        let station = self.any_station();
        let upload = Upload::partial(station, length, (first, last), self.clock);
        Some(Upload { next, repeats, ..upload })
    }

    /// The same with a number out of its range.
    pub(super) fn bad_change(&mut self, kind: usize) -> Upload {
        let good = self.good_change(kind);
        let good = good.unwrap_or(Upload::partial(self.any_station(), 0, (0, 0), self.clock));
        let Upload { count, next, first, last, .. } = good;
        let far = self.random.pick(&[PLAN_SIZE[kind], u16::MAX]);
        let shorter = last.max(count.saturating_sub(1));
        match self.random.below(8) {
            0 => Upload { count: count.wrapping_add(1), ..good },
            1 => Upload { count: shorter, ..good },
            2 => Upload { count: far.max(count.wrapping_add(1)), ..good },
            3 => Upload { first: next + 1, last: last.max(next + 1), ..good },
            4 => Upload { next: last.wrapping_add(1), ..good },
            5 => Upload { next: first.wrapping_sub(1), ..good },
            6 => Upload { last: self.random.pick(&[count, far]), ..good },
            _ => Upload { repeats: self.random.pick(&[MAX_REPEATS + 1, u8::MAX]), ..good },
        }
    }
}
