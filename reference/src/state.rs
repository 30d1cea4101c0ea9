//! The service's state and the ranges of its numbers.

use crate::fault::Fault;
use crate::layout::Address;
use crate::limits::*;
use crate::store::Shelf;

/// An upload that runs.
#[derive(Clone, Copy, Debug, Default, PartialEq, Eq)]
pub struct Upload {
    pub station: Address,
    /// Items of the plan that it makes.
    pub count: u16,
    pub next: u16,
    pub start: u32,
    pub repeats: u8,
    /// True if it changes items of the plan, and leaves the others (request M-108).
    pub partial: bool,
    /// The numbers of the first and the last item that it takes.
    pub first: u16,
    pub last: u16,
}

impl Upload {
    /// An upload of a whole plan, before its first item.
    pub fn whole(station: Address, count: u16, start: u32) -> Upload {
        Upload { station, count, start, last: count.wrapping_sub(1), ..Upload::default() }
    }

    /// An upload of items `first` to `last` of a plan of this length, before its first item.
    pub fn partial(station: Address, length: u16, items: (u16, u16), start: u32) -> Upload {
        let (first, last) = items;
        let whole = Upload::whole(station, length, start);
        Upload { next: first, partial: true, first, last, ..whole }
    }

    /// True if its numbers are in their ranges, over a plan of this length.
    fn in_range(&self, length: u16, size: u16, fault: Fault) -> bool {
        let Upload { count, next, first, last, .. } = *self;
        let fits = match self.partial {
            true => {
                (count == length || fault.is(Fault::PartialAnyCount))
                    && (first <= next || fault.is(Fault::PartialNextBelow))
                    && next <= last
                    && (last < count || fault.is(Fault::PartialAnyLast))
            }
            false => {
                (first == 0 || fault.is(Fault::WholeAnyFirst))
                    && (last == count.wrapping_sub(1) || fault.is(Fault::WholeAnyLast))
                    && next < count
            }
        };
        fits && (1..=size).contains(&count) && self.repeats <= MAX_REPEATS
    }
}

/// What is kept of one kind.
#[derive(Clone, Copy, Debug, Default, PartialEq, Eq)]
pub struct Plan {
    pub length: u16,
    pub number: u32,
    /// The half of the store that holds the plan: 0 or 1.
    pub half: u8,
    pub upload: Option<Upload>,
}

impl Plan {
    /// The plan number as shown: 0 for an empty plan.
    pub fn shown_number(&self) -> u32 {
        if self.length == 0 {
            0
        } else {
            self.number
        }
    }

    pub fn another_uploads(&self, station: Address) -> bool {
        self.upload.is_some_and(|upload| upload.station != station)
    }

    /// The half that an upload fills.
    pub fn other_half(&self) -> u8 {
        1 - self.half
    }

    fn in_range(&self, size: u16, fault: Fault) -> bool {
        let upload_in_range = |upload: &Upload| upload.in_range(self.length, size, fault);
        self.length <= size && self.upload.as_ref().is_none_or(upload_in_range)
    }
}

#[derive(Clone, Debug, Default, PartialEq, Eq)]
pub struct State {
    /// The setting "home in item 0" (request M-109), "chosen at the fresh start".
    pub home: bool,
    pub plans: [Plan; KINDS],
    pub current: u16,
    pub begun: bool,
    pub jump_counts: [u16; MAX_JUMPS],
}

impl State {
    /// Empty plans, no upload, all numbers 0, not begun, first halves.
    pub fn fresh(home: bool) -> State {
        State { home, ..State::default() }
    }

    /// True if every number is in its range (else outcome 15).
    pub fn in_range(&self, fault: Fault) -> bool {
        let plans = self.plans.iter().zip(PLAN_SIZE);
        plans.into_iter().all(|(plan, size)| plan.in_range(size, fault))
            && (self.current == 0 || self.current < self.plans[FLIGHT].length)
            && self.jump_counts.iter().all(|count| *count <= MAX_JUMP_COUNT)
    }

    /// Where a kind's plan lies.
    pub fn plan_shelf(&self, kind: usize) -> Shelf {
        Shelf::new(kind, self.plans[kind].half)
    }

    /// Where an upload of a kind puts its items.
    pub fn upload_shelf(&self, kind: usize) -> Shelf {
        Shelf::new(kind, self.plans[kind].other_half())
    }

    /// Item 0 current, not begun, jump counts 0.
    pub fn restart_flight(&mut self) {
        self.current = 0;
        self.begun = false;
        self.jump_counts = [0; MAX_JUMPS];
    }
}

#[cfg(test)]
mod tests {
    use super::*;

    fn with_upload(kind: usize, upload: Upload) -> State {
        let mut state = State::fresh(false);
        state.plans[kind].upload = Some(upload);
        state
    }

    /// Whether a whole upload with these numbers is in range.
    fn whole_in_range(kind: usize, count: u16, next: u16, repeats: u8) -> bool {
        let upload = Upload { next, repeats, ..Upload::whole(Address::default(), count, 0) };
        with_upload(kind, upload).in_range(Fault::None)
    }

    #[test]
    fn plan_ranges() {
        for (kind, size) in PLAN_SIZE.into_iter().enumerate() {
            let mut state = State::fresh(false);
            state.plans[kind].length = size;
            assert!(state.in_range(Fault::None));
            state.plans[kind].length += 1;
            assert!(!state.in_range(Fault::None));
        }
    }

    #[test]
    fn upload_ranges() {
        for (kind, size) in PLAN_SIZE.into_iter().enumerate() {
            assert!(whole_in_range(kind, size, size - 1, 5));
            assert!(!whole_in_range(kind, size, size, 5));
            assert!(!whole_in_range(kind, size + 1, 0, 0));
            assert!(!whole_in_range(kind, 0, 0, 0));
            assert!(!whole_in_range(kind, 1, 0, 6));
        }
    }

    #[test]
    fn first_and_last_of_a_whole_upload() {
        let upload = Upload::whole(Address::default(), 4, 0);
        assert_eq!((upload.first, upload.last), (0, 3));
        let in_range = |first, last| {
            let upload = Upload { next: 2, first, last, ..upload };
            with_upload(RALLY, upload).in_range(Fault::None)
        };
        assert!(in_range(0, 3));
        assert!(![(1, 3), (0, 2), (0, 4), (u16::MAX, 3)].iter().any(|(f, l)| in_range(*f, *l)));
    }

    #[test]
    fn partial_upload_ranges() {
        for (kind, size) in PLAN_SIZE.into_iter().enumerate() {
            let in_range = |length, count, [first, next, last]: [u16; 3]| {
                let upload = Upload::partial(Address::default(), count, (first, last), 0);
                let mut state = with_upload(kind, Upload { next, repeats: 5, ..upload });
                state.plans[kind].length = length;
                state.in_range(Fault::None)
            };
            let end = size - 1;
            for good in [[0, 0, 0], [0, 0, end], [0, end, end], [end; 3], [3, 5, 7]] {
                assert!(in_range(size, size, good), "{good:?}");
            }
            for bad in [[1, 0, 1], [0, 2, 1], [2, 2, 1], [0, 0, size], [size; 3]] {
                assert!(!in_range(size, size, bad), "{bad:?}");
            }
            assert!(in_range(4, 4, [0, 0, 3]));
            assert!(!in_range(4, 3, [0, 0, 2]) && !in_range(4, 5, [0, 0, 3]));
            assert!(!in_range(0, 0, [0, 0, 0]) && !in_range(size + 1, size + 1, [0, 0, 0]));
        }
    }

    #[test]
    fn progress_ranges() {
        let mut state = State::fresh(false);
        state.current = 1;
        assert!(!state.in_range(Fault::None));
        state.plans[FLIGHT].length = 2;
        assert!(state.in_range(Fault::None));
        state.current = 2;
        assert!(!state.in_range(Fault::None));
        state.current = 0;
        state.jump_counts[14] = 32767;
        assert!(state.in_range(Fault::None));
        state.jump_counts[14] = 32768;
        assert!(!state.in_range(Fault::None));
    }
}
