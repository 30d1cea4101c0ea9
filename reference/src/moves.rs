//! The one-time move of the three plans from a store of bytes into the store of
//! words (request M-106).

use crate::fault::Fault;
use crate::items::{judge, Standing};
use crate::layout::Item;
use crate::limits::*;
use crate::service::outcome;
use crate::state::{Plan, State};
use crate::store::Shelf;

/// Puts every plan's items at the same places as words, and ends the uploads. A
/// refused move changes nothing.
pub fn move_from_bytes(state: &mut State, old: &[u8], store: &mut [u32], fault: Fault) -> u8 {
    if let Some(refusal) = refusal(state, old.len(), store.len(), fault) {
        if fault.is(Fault::MoveRefusedEnds) {
            *state = without_uploads(state);
        }
        return refusal;
    }
    let forgotten = usize::from(fault.is(Fault::MoveForgetsRally));
    for kind in 0..KINDS - forgotten {
        move_plan(state, kind, old, store, fault);
    }
    if !fault.is(Fault::MoveKeepsUpload) {
        *state = without_uploads(state);
    }
    if fault.is(Fault::MoveResetsProgress) {
        state.restart_flight();
    }
    state.home &= !fault.is(Fault::Home0LostAtMove);
    outcome::NO_REPLY
}

/// The refusals 14 and 15, in this order.
fn refusal(state: &State, old_len: usize, new_len: usize, fault: Fault) -> Option<u8> {
    let least_old = match fault {
        Fault::MoveShortAt26752 => OLD_STORE_BYTES + 1,
        Fault::MoveLongAt26751 => OLD_STORE_BYTES - 1,
        _ => OLD_STORE_BYTES,
    };
    let new_short = new_len < STORE_WORDS && !fault.is(Fault::MoveNewUnjudged);
    let in_range = match fault {
        Fault::MoveUploadsUnjudged => without_uploads(state).in_range(fault),
        _ => state.in_range(fault),
    };
    let mut reasons = [
        (old_len < least_old || new_short, outcome::SHORT_STORE),
        (!in_range, outcome::OUT_OF_RANGE),
    ];
    if fault.is(Fault::MoveRangeFirst) {
        reasons.reverse();
    }
    reasons.into_iter().find(|(holds, _)| *holds).map(|(_, refusal)| refusal)
}

fn without_uploads(state: &State) -> State {
    let plans = state.plans.map(|plan| Plan { upload: None, ..plan });
    State { plans, ..state.clone() }
}

fn move_plan(state: &mut State, kind: usize, old: &[u8], store: &mut [u32], fault: Fault) {
    let plan = state.plan_shelf(kind);
    let from = if fault.is(Fault::MoveOtherHalf) { state.upload_shelf(kind) } else { plan };
    if fault.is(Fault::MoveToFirstHalf) {
        state.plans[kind].half = 0;
    }
    let to = state.plan_shelf(kind).with(fault);
    let length = state.plans[kind].length;
    for index in 0..length {
        let item = old_item(old, from.place(index));
        let home = state.home;
        let standing = Standing { kind, number: index, count: length, jumps_before: 0, home };
        let left = fault.is(Fault::MoveLeavesInvalid) && judge(&item, &standing, fault).is_err();
        if !left {
            to.put(store, moved_to(&item, &to, index, fault), &item);
        }
    }
    if fault.is(Fault::MoveWritesBeside) {
        (length..PLAN_SIZE[kind]).for_each(|index| to.put(store, index, &Item::default()));
    }
}

/// The number that an item has after the move: the one it had.
fn moved_to(item: &Item, to: &Shelf, index: u16, fault: Fault) -> u16 {
    let by_seq = fault.is(Fault::MoveBySeq) && item.seq < PLAN_SIZE[to.kind];
    if by_seq {
        item.seq
    } else {
        index
    }
}

/// The item at a place of a store of bytes; one that is not whole there is 0.
fn old_item(old: &[u8], place: usize) -> Item {
    old[place * ITEM_BYTES..].first_chunk().map(Item::from_bytes).unwrap_or_default()
}

#[cfg(test)]
mod tests {
    use super::*;
    use crate::layout::Address;
    use crate::state::Upload;
    use crate::store::words_of;

    const FILL: u32 = 0xEEEE_EEEE;

    /// Plans of two items in both halves, an upload of each kind, the rally plan's
    /// a partial one, and progress.
    fn before() -> State {
        let mut state = State::fresh(false);
        for (kind, plan) in state.plans.iter_mut().enumerate() {
            let station = Address::default();
            let upload = match kind {
                RALLY => Upload::partial(station, 2, (1, 1), 0),
                _ => Upload { next: 2, repeats: 5, ..Upload::whole(station, 3, 0) },
            };
            let half = (kind % 2) as u8;
            *plan = Plan { length: 2, number: 7 + kind as u32, half, upload: Some(upload) };
        }
        state.current = 1;
        state.begun = true;
        state.jump_counts[14] = 32767;
        state
    }

    /// A store of bytes in which no two items are alike, nor valid.
    fn old_store() -> Vec<u8> {
        (0..OLD_STORE_BYTES).map(|at| (at / ITEM_BYTES * 5 + at % ITEM_BYTES) as u8).collect()
    }

    fn moved(state: &mut State, old: &[u8]) -> (u8, Vec<u32>) {
        let mut store = vec![FILL; STORE_WORDS];
        (move_from_bytes(state, old, &mut store, Fault::None), store)
    }

    #[test]
    fn plans_at_the_same_places() {
        let (mut state, old) = (before(), old_store());
        let (outcome, store) = moved(&mut state, &old);
        assert_eq!(outcome, 1);
        let mut expected = vec![FILL; STORE_WORDS];
        for place in [0, 1, 352 + 256, 352 + 257, 320, 321] {
            let bytes = old[place * ITEM_BYTES..].first_chunk().unwrap();
            let words = words_of(&Item::from_bytes(bytes));
            expected[place * ITEM_WORDS..][..ITEM_WORDS].copy_from_slice(&words);
        }
        assert_eq!(store, expected);
    }

    #[test]
    fn uploads_end_and_all_else_stays() {
        let mut state = before();
        moved(&mut state, &old_store());
        assert_eq!(state, without_uploads(&before()));
    }

    #[test]
    fn a_refused_move_changes_nothing() {
        let whole = (OLD_STORE_BYTES, STORE_WORDS);
        let bad_upload =
            |state: &mut State| state.plans[RALLY].upload.as_mut().unwrap().repeats = 6;
        let bad_last = |state: &mut State| state.plans[RALLY].upload.as_mut().unwrap().last = 2;
        let bad_first = |state: &mut State| state.plans[FENCE].upload.as_mut().unwrap().first = 1;
        let bad_count = |state: &mut State| state.jump_counts[0] = 32768;
        let none = |_: &mut State| {};
        type Spoil<'a> = &'a dyn Fn(&mut State);
        let refused: [(Spoil, (usize, usize), u8); 8] = [
            (&none, (whole.0 - 1, whole.1), 14),
            (&none, (whole.0, whole.1 - 1), 14),
            (&bad_count, (0, whole.1), 14),
            (&bad_count, (whole.0, 0), 14),
            (&bad_count, whole, 15),
            (&bad_upload, whole, 15),
            (&bad_last, whole, 15),
            (&bad_first, whole, 15),
        ];
        for (spoil, (old_len, new_len), outcome) in refused {
            let mut state = before();
            spoil(&mut state);
            let (kept, mut store) = (state.clone(), vec![FILL; new_len]);
            let old = &old_store()[..old_len];
            assert_eq!(move_from_bytes(&mut state, old, &mut store, Fault::None), outcome);
            assert_eq!((state, store), (kept, vec![FILL; new_len]));
        }
    }

    #[test]
    fn empty_plans_keep_their_numbers() {
        let mut state = State::fresh(false);
        state.plans[FENCE] = Plan { number: 9, half: 1, ..Plan::default() };
        let (outcome, store) = moved(&mut state, &old_store());
        assert_eq!((outcome, state.plans[FENCE].number, state.plans[FENCE].half), (1, 9, 1));
        assert_eq!(store, vec![FILL; STORE_WORDS]);
    }
}
