//! Choosing the next command of the flight plan, with jumps.

use crate::fault::Fault;
use crate::home::search_begin;
use crate::items::{judge, read, whole, Reading, Standing, DO_JUMP};
use crate::layout::Item;
use crate::limits::*;
use crate::state::State;

/// The answer to "command done". The first number is the item's; amounts are
/// bit patterns of 32-bit floats.
#[derive(Clone, Copy, Debug, PartialEq, Eq)]
pub enum Command {
    Fly(u16),
    Wait(u16, u32),
    Near(u16, u32),
    Turn(u16, u32),
    Speed(u16, u32),
    Servo(u16, i64, i64),
    Finished,
    Stuck,
}

/// Answers the next command and moves the state on to it. Finished and Stuck
/// leave the state unchanged.
pub fn next_command(state: &mut State, store: &[u32], fault: Fault) -> Command {
    let length = state.plans[FLIGHT].length;
    let shelf = state.plan_shelf(FLIGHT).with(fault);
    let mut jump_counts = state.jump_counts;
    let mut followed = 0;
    let first_counted = u16::from(state.home && fault.is(Fault::Home0Uncounted));
    if state.home && stuck_at_home(&shelf.item(store, 0), length, fault) {
        return Command::Stuck;
    }
    let mut at = search_begin(state, fault);
    while at < length {
        let item = shelf.item(store, at);
        let is_jump = item.command == DO_JUMP;
        let jumps_before = if is_jump { shelf.jumps(store, first_counted..at) } else { 0 };
        let (kind, home) = (FLIGHT, state.home);
        let standing = Standing { kind, number: at, count: length, jumps_before, home };
        if is_jump && passes_home(&item, &standing, fault) {
            at += 1;
            continue;
        }
        if breaks_rules(&item, &standing, fault) {
            return Command::Stuck;
        }
        if !is_jump {
            state.current = at;
            state.begun = true;
            state.jump_counts = jump_counts;
            return command_of(&item, at);
        }
        let (target, repeat) = jump_of(&item, fault);
        let runs = jump_counts.get_mut(jumps_before);
        let Some(runs) = runs else { return Command::Stuck };
        if repeat != -1 && i64::from(*runs) >= repeat {
            at += 1;
            followed += u32::from(fault.is(Fault::PassedCounted));
            continue;
        }
        if followed >= MAX_FOLLOWED + u32::from(fault.is(Fault::Follow65)) {
            if fault.is(Fault::StuckKeepsCounts) {
                state.jump_counts = jump_counts;
            }
            return Command::Stuck;
        }
        followed += 1;
        *runs += u16::from(repeat != -1);
        at = target;
    }
    Command::Finished
}

/// With a planted fault, whether item 0 hinders a search that never meets it.
fn stuck_at_home(home: &Item, length: u16, fault: Fault) -> bool {
    let standing = Standing { kind: FLIGHT, number: 0, count: length, jumps_before: 0, home: true };
    match fault {
        Fault::Home0AloneStuck => length == 1,
        Fault::Home0Judged => length > 0 && judge(home, &standing, Fault::None).is_err(),
        _ => false,
    }
}

/// With a planted fault, whether a jump to 0 is passed over.
fn passes_home(jump: &Item, standing: &Standing, fault: Fault) -> bool {
    standing.home && fault.is(Fault::Home0JumpPassed) && whole(jump.params[0]) == Some(0)
}

/// Whether an item that the search meets is not valid.
fn breaks_rules(item: &Item, standing: &Standing, fault: Fault) -> bool {
    let trusted = fault.is(Fault::SearchTrusts) && item.command != DO_JUMP;
    let judging = match fault {
        Fault::HomeStuck => Fault::HomePositional,
        Fault::Home0JumpFollowed => Fault::Home0JumpTaken,
        _ => fault,
    };
    !trusted && judge(item, standing, judging).is_err()
}

/// Target and repeat of a valid jump; a repeat without a value is 1 (request M-105).
fn jump_of(item: &Item, fault: Fault) -> (u16, i64) {
    let target = whole(item.params[0]).unwrap_or(0) as u16;
    let without = match fault {
        Fault::NanRepeatZero => 0,
        Fault::NanRepeatForever => -1,
        Fault::NanRepeatTwice => 2,
        _ => 1,
    };
    let repeat = match read(item.params[1]) {
        Reading::Whole(repeat) => i64::from(repeat),
        Reading::NoValue => without,
        Reading::NotWhole => 0,
    };
    (target, repeat)
}

/// The answer for a valid item that is no jump.
fn command_of(item: &Item, number: u16) -> Command {
    let [first, second, _, _] = item.params;
    match item.command {
        112 => Command::Wait(number, first),
        114 => Command::Near(number, first),
        115 => Command::Turn(number, first),
        178 => Command::Speed(number, second),
        183 => Command::Servo(number, whole(first).unwrap_or(0), whole(second).unwrap_or(0)),
        _ => Command::Fly(number),
    }
}

#[cfg(test)]
mod tests {
    use super::*;

    fn nav(command: u16) -> Item {
        Item { command, frame: 3, ..Item::default() }
    }

    fn pair(command: u16, first: f32, second: f32) -> Item {
        Item { params: [first.to_bits(), second.to_bits(), 0, 0], ..nav(command) }
    }

    fn planned(items: &[Item]) -> (State, Vec<u32>) {
        let mut store = vec![0; STORE_WORDS];
        let mut state = State::fresh(false);
        for (index, item) in items.iter().enumerate() {
            state.plan_shelf(FLIGHT).put(&mut store, index as u16, item);
        }
        state.plans[FLIGHT].length = items.len() as u16;
        (state, store)
    }

    fn answers(items: &[Item], calls: usize) -> Vec<Command> {
        let (mut state, store) = planned(items);
        (0..calls).map(|_| next_command(&mut state, &store, Fault::None)).collect()
    }

    #[test]
    fn takeoff_waypoint_jump_twice_land() {
        let items = [nav(22), nav(16), pair(177, 1.0, 2.0), nav(21)];
        let fly = [0, 1, 1, 1, 3].map(Command::Fly);
        let answers = answers(&items, 7);
        assert_eq!(answers[..5], fly);
        assert_eq!(answers[5..], [Command::Finished; 2]);
    }

    #[test]
    fn jumps_followed() {
        for (repeat, answer) in [(31.0, Command::Fly(2)), (32.0, Command::Stuck)] {
            let items = [pair(177, 1.0, -1.0), pair(177, 0.0, repeat), nav(16)];
            let (mut state, store) = planned(&items);
            assert_eq!(next_command(&mut state, &store, Fault::None), answer);
            let counts = if answer == Command::Stuck { 0 } else { 31 };
            assert_eq!(state.jump_counts[1], counts);
            assert_eq!(state.begun, answer != Command::Stuck);
        }
    }

    #[test]
    fn a_repeat_without_a_value_is_one() {
        for bits in [0x7FC0_0000, 0x7F80_0001, 0xFFC0_0000, 0xFF80_0001] {
            let mut jump = pair(177, 0.0, 0.0);
            jump.params[1] = bits;
            let (mut state, store) = planned(&[nav(16), jump, nav(21)]);
            let mut next = || next_command(&mut state, &store, Fault::None);
            assert_eq!([next(), next(), next()], [0, 0, 2].map(Command::Fly));
            assert_eq!(next(), Command::Finished);
            assert_eq!(state.jump_counts[0], 1);
        }
        let infinite = pair(177, 0.0, f32::INFINITY);
        assert_eq!(answers(&[nav(16), infinite], 2), [Command::Fly(0), Command::Stuck]);
    }

    #[test]
    fn kinds_of_answer() {
        let items = [
            pair(112, 5.0, 0.0),
            pair(114, -0.0, 0.0),
            pair(115, 360.0, 0.0),
            pair(178, 0.0, -2.5),
            pair(183, 16.0, 1500.0),
        ];
        let expected = [
            Command::Wait(0, 5.0f32.to_bits()),
            Command::Near(1, 0x8000_0000),
            Command::Turn(2, 360.0f32.to_bits()),
            Command::Speed(3, (-2.5f32).to_bits()),
            Command::Servo(4, 16, 1500),
            Command::Finished,
        ];
        assert_eq!(answers(&items, 6), expected);
    }

    #[test]
    fn items_that_a_host_wrote() {
        assert_eq!(answers(&[nav(30)], 1), [Command::Stuck]);
        assert_eq!(answers(&[pair(177, 0.0, 0.0)], 1), [Command::Stuck]);
        assert_eq!(answers(&[pair(177, 1.0, 0.0)], 1), [Command::Stuck]);
        let mut jumps = vec![pair(177, 20.0, 0.0); 15];
        jumps.extend([nav(16), pair(177, 20.0, 0.0), nav(16), nav(16), nav(16), nav(16)]);
        assert_eq!(answers(&jumps, 2), [Command::Fly(15), Command::Stuck]);
    }

    #[test]
    fn an_empty_plan_is_finished() {
        assert_eq!(answers(&[], 1), [Command::Finished]);
    }
}
