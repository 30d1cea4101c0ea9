//! Home in item 0 (request M-109): what item 0 may be, jumps to it, which item
//! SET_CURRENT 0 chooses, where the search begins, and that the setting stays.

#[path = "drone/changes.rs"]
mod changes;
mod drone;

use drone::*;
use reference::fault::Fault;
use reference::layout::{Item, Message};
use reference::limits::*;
use reference::moves::move_from_bytes;
use reference::search::Command;
use reference::state::State;

const FLIGHT_KIND: u8 = FLIGHT as u8;
const MINUS_ZERO: f32 = -0.0;

impl Drone {
    /// A drone with the setting and a plan of home and these items.
    fn at_home(items: &[Item]) -> Drone {
        let mut drone = Drone::with_setting(true);
        let plan = [&[nav(16)], items].concat();
        assert_eq!(drone.upload(FLIGHT_KIND, &plan), ack(STATION, 0, 0, 1));
        drone
    }

    fn set_current(&mut self, seq: u16) -> Option<Message> {
        self.send(STATION, Message::SetCurrent { seq, to: OWN })
    }

    /// The current field of an item that is asked for.
    fn current_field(&mut self, seq: u16) -> u8 {
        match self.send(STATION, Message::RequestInt { seq, to: OWN, kind: 0 }) {
            Some(Message::ItemInt(item)) => item.current,
            other => panic!("{other:?}"),
        }
    }

    /// A host writes an item of the flight plan.
    fn host_writes(&mut self, index: u16, item: &Item) {
        self.service.plan_shelf(FLIGHT).put(&mut self.store, index, item);
    }

    /// Current item and whether it has begun.
    fn progress(&self) -> (u16, bool) {
        (self.service.state.current, self.service.state.begun)
    }
}

/// A valid item of each flight command, for place 0 of a plan of two without the setting.
fn flight_items() -> Vec<Item> {
    let plain = [16, 17, 18, 19, 20, 21, 22, 31, 112, 114, 115, 178].map(nav);
    plain.into_iter().chain([pair(177, 1.0, 0.0), pair(183, 1.0, 500.0)]).collect()
}

/// The result for item 0 of a flight plan of two.
fn verdict_on_item_0(home: bool, item: Item) -> u8 {
    let mut drone = Drone::with_setting(home);
    drone.count(STATION, FLIGHT_KIND, 2);
    match drone.item(STATION, item) {
        Some(Message::Ack { result, .. }) => result,
        reply => {
            assert_eq!(reply, request(STATION, 1, 0));
            0
        }
    }
}

#[test]
fn item_0_is_a_waypoint() {
    for item in flight_items() {
        let at_command = if item.command == 16 { 0 } else { 3 };
        let wrong_frame = Item { frame: 1, ..item };
        assert_eq!(verdict_on_item_0(true, item), at_command, "{}", item.command);
        assert_eq!(verdict_on_item_0(true, wrong_frame), at_command.max(2), "{}", item.command);
        assert_eq!(verdict_on_item_0(false, item), 0);
        assert_eq!(verdict_on_item_0(false, wrong_frame), 2);
    }
    for command in [0, 15, 23, 5000, 5100, 65535] {
        assert_eq!(verdict_on_item_0(true, Item { frame: 1, ..nav(command) }), 3);
    }
}

#[test]
fn home_is_judged_as_any_waypoint() {
    let bad_frame = Item { frame: 2, ..nav(16) };
    let bad_param = pair(16, -1.0, 0.0);
    let bad_x = Item { x: 900_000_001, ..nav(16) };
    let bad_z = Item { z: f32::NAN.to_bits(), ..nav(16) };
    let verdicts = [bad_frame, bad_param, bad_x, bad_z].map(|item| verdict_on_item_0(true, item));
    assert_eq!(verdicts, [2, 6, 10, 12]);
    for item in flight_items().into_iter().filter(|item| item.command != 177) {
        Drone::at_home(&[item]);
    }
}

#[test]
fn a_changed_item_0_is_judged_the_same() {
    let mut drone = Drone::at_home(&[nav(16), nav(16)]);
    for item in flight_items().into_iter().filter(|item| item.command != 16) {
        for frame in [1, 3] {
            let reply = drone.change_all(FLIGHT_KIND, 0, &[Item { frame, ..item }]);
            assert_eq!(reply, ack(STATION, 3, 0, 0), "{}", item.command);
        }
    }
    assert_eq!(drone.change_all(FLIGHT_KIND, 1, &[nav(22)]), ack(STATION, 0, 0, 2));
    assert_eq!(drone.change_all(FLIGHT_KIND, 0, &[nav(16), nav(31)]), ack(STATION, 0, 0, 3));
}

#[test]
fn fence_and_rally_have_no_home() {
    for (kind, item) in [(1, nav(5000)), (1, pair(5003, 1.0, 0.0)), (2, nav(5100))] {
        let mut drone = Drone::with_setting(true);
        assert_eq!(drone.upload(kind, &[item; 1]), ack(STATION, 0, kind, 1));
        assert_eq!(drone.change_all(kind, 0, &[item]), ack(STATION, 0, kind, 2));
        drone.count(STATION, kind, 1);
        assert_eq!(drone.item(STATION, Item { kind, ..nav(16) }), ack(STATION, 3, kind, 0));
    }
}

#[test]
fn a_jump_to_home_is_refused() {
    let to = |target, repeat| [nav(16), nav(16), pair(177, target, repeat)];
    for target in [0.0, MINUS_ZERO] {
        for repeat in [1.0, -2.0] {
            let mut drone = Drone::with_setting(true);
            let reply = drone.upload(FLIGHT_KIND, &to(target, repeat));
            assert_eq!(reply, ack(STATION, 6, 0, 0));
            let mut drone = Drone::at_home(&[nav(16), nav(16)]);
            let reply = drone.change_all(FLIGHT_KIND, 1, &to(target, repeat)[2..]);
            assert_eq!(reply, ack(STATION, 6, 0, 0));
        }
        let reply = Drone::fresh().upload(FLIGHT_KIND, &to(target, 1.0));
        assert_eq!(reply, ack(STATION, 0, 0, 1));
    }
    let reply = Drone::with_setting(true).upload(FLIGHT_KIND, &to(1.0, 1.0));
    assert_eq!(reply, ack(STATION, 0, 0, 1));
}

#[test]
fn a_sixteenth_jump_to_home_is_6() {
    for (target, result) in [(0.0, 6), (17.0, 4)] {
        let mut drone = Drone::with_setting(true);
        drone.count(STATION, FLIGHT_KIND, 18);
        drone.item(STATION, nav(16));
        for seq in 1..16 {
            let reply = drone.item(STATION, Item { seq, ..pair(177, 17.0, 1.0) });
            assert_eq!(reply, request(STATION, seq + 1, 0));
        }
        let sixteenth = Item { seq: 16, ..pair(177, target, 1.0) };
        assert_eq!(drone.item(STATION, sixteenth), ack(STATION, result, 0, 0));
    }
}

#[test]
fn set_current_0_chooses_1() {
    let refused = |reply| matches!(reply, Some(Message::StatusText { severity: 4, .. }));
    let mut drone = Drone::with_setting(true);
    for plan in [&[][..], &[nav(16)]] {
        drone.upload(FLIGHT_KIND, plan);
        for seq in [0, 1, 65535] {
            let before = drone.service.state.clone();
            assert!(refused(drone.set_current(seq)));
            assert_eq!(drone.service.state, before);
        }
    }
    let mut drone = Drone::at_home(&[nav(16), nav(16)]);
    for (seq, chosen) in [(0, 1), (2, 2), (1, 1), (0, 1)] {
        let numbers = [1, 0, 0];
        let current = Message::Current { seq: chosen, total: 3, state: 0, mode: 0, numbers };
        assert_eq!(drone.set_current(seq), Some(current));
        assert_eq!(drone.progress(), (chosen, false));
        assert_eq!([0, 1, 2].map(|seq| drone.current_field(seq)).iter().sum::<u8>(), 1);
        assert_eq!(drone.current_field(chosen), 1);
        assert_eq!(drone.done(), Command::Fly(chosen));
    }
    assert!(refused(drone.set_current(3)));
}

#[test]
fn the_search_begins_at_1() {
    let mut drone = Drone::at_home(&[nav(22), pair(177, 1.0, 1.0)]);
    assert_eq!((drone.progress(), drone.current_field(0)), ((0, false), 1));
    assert_eq!(
        [(); 3].map(|_| drone.done()),
        [Command::Fly(1), Command::Fly(1), Command::Finished]
    );
    assert_eq!((drone.progress(), drone.current_field(0)), ((1, true), 0));
    for begun in [false, true] {
        (drone.service.state.current, drone.service.state.begun) = (0, begun);
        assert_eq!(drone.done(), Command::Fly(1), "{begun}");
    }
}

#[test]
fn home_alone_is_finished() {
    for home_alone in [&[][..], &[nav(16)]] {
        for begun in [false, true] {
            let mut drone = Drone::with_setting(true);
            drone.upload(FLIGHT_KIND, home_alone);
            drone.service.state.begun = begun;
            let before = drone.service.state.clone();
            assert_eq!(drone.done(), Command::Finished);
            assert_eq!(drone.service.state, before);
        }
    }
    let mut drone = Drone::fresh();
    drone.upload(FLIGHT_KIND, &[nav(16)]);
    assert_eq!(drone.done(), Command::Fly(0));
}

#[test]
fn a_hosts_jump_to_home_is_stuck() {
    for target in [0.0, MINUS_ZERO] {
        let mut drone = Drone::at_home(&[pair(177, 2.0, 5.0), nav(16), nav(16)]);
        assert_eq!(drone.done(), Command::Fly(2));
        drone.host_writes(3, &pair(177, target, 1.0));
        let before = drone.service.state.clone();
        assert_eq!(drone.done(), Command::Stuck);
        assert_eq!(drone.service.state, before);
        drone.host_writes(3, &pair(177, 1.0, 1.0));
        assert_eq!(drone.done(), Command::Fly(2));
        assert_eq!(drone.service.state.jump_counts[..3], [2, 1, 0]);
    }
}

#[test]
fn a_hosts_item_0_is_never_met() {
    for item in [nav(30), nav(22), pair(177, 0.0, 1.0), Item { frame: 1, ..nav(16) }] {
        let mut drone = Drone::at_home(&[nav(16)]);
        drone.host_writes(0, &item);
        assert_eq!([drone.done(), drone.done()], [Command::Fly(1), Command::Finished]);
        assert!(drone.set_current(0).is_some());
        assert_eq!(drone.done(), Command::Fly(1));
    }
}

#[test]
fn a_hosts_jump_at_0_is_the_first() {
    let mut drone = Drone::at_home(&[pair(177, 2.0, 5.0), nav(16)]);
    drone.host_writes(0, &pair(177, 2.0, 5.0));
    assert_eq!(drone.done(), Command::Fly(2));
    assert_eq!(drone.service.state.jump_counts[..3], [0, 1, 0]);
    let mut jumps = vec![pair(177, 16.0, 5.0); 15];
    jumps.push(nav(16));
    for (first, answer) in [(nav(16), Command::Fly(16)), (pair(177, 16.0, 5.0), Command::Stuck)] {
        let mut drone = Drone::at_home(&jumps);
        drone.host_writes(0, &first);
        drone.set_current(15);
        assert_eq!(drone.done(), answer);
    }
}

/// In an upload's items taken, and in the whole of a partial one.
#[test]
fn a_hosts_jump_at_0_takes_room() {
    let jump = pair(177, 16.0, 5.0);
    for (first, result) in [(nav(16), 0), (jump, 4)] {
        let mut drone = Drone::with_setting(true);
        drone.count(STATION, FLIGHT_KIND, 17);
        drone.item(STATION, nav(16));
        drone.service.upload_shelf(FLIGHT).put(&mut drone.store, 0, &first);
        for seq in 1..15 {
            drone.item(STATION, Item { seq, ..jump });
        }
        let reply = drone.item(STATION, Item { seq: 15, ..jump });
        let taken = request(STATION, 16, 0);
        assert_eq!(reply, if result == 0 { taken } else { ack(STATION, 4, 0, 0) });

        let mut plan = vec![jump; 14];
        plan.extend([nav(16), nav(16)]);
        let mut drone = Drone::at_home(&plan);
        drone.host_writes(0, &first);
        let number = if result == 0 { 2 } else { 0 };
        let reply = drone.change_all(FLIGHT_KIND, 15, &[jump]);
        assert_eq!(reply, ack(STATION, result, 0, number));
        assert_eq!(drone.length(FLIGHT_KIND), 17);
    }
}

#[test]
fn nothing_changes_the_setting() {
    for home in [false, true] {
        let mut drone = Drone::with_setting(home);
        let kept = |drone: &Drone| assert_eq!(drone.service.state.home, home);
        drone.upload(FLIGHT_KIND, &[nav(16); 3]);
        kept(&drone);
        drone.change_all(FLIGHT_KIND, 0, &[nav(16)]);
        kept(&drone);
        for kind in [0, 1, 2, 255] {
            drone.send(STATION, Message::ClearAll { to: OWN, kind });
            kept(&drone);
            drone.upload(FLIGHT_KIND, &[nav(16); 2]);
            drone.count(STATION, FLIGHT_KIND, 0);
            kept(&drone);
        }
        drone.count(STATION, FLIGHT_KIND, 1);
        assert!(drone.running(FLIGHT_KIND).is_some());
        assert_eq!(drone.count(OTHER, FLIGHT_KIND, 0), ack(OTHER, 14, 0, 0));
        for _ in 0..=MAX_REPEATS {
            drone.clock += EXPIRY_MS;
            drone.tick(FLIGHT_KIND);
            kept(&drone);
        }
        drone.done();
        assert_eq!(drone.raw(STATION, 41, &[]).outcome, 11);
        kept(&drone);
    }
}

#[test]
fn the_move_keeps_the_setting() {
    let old = vec![0; OLD_STORE_BYTES];
    let mut store = vec![0; STORE_WORDS];
    for home in [false, true] {
        for (old_len, outcome) in [(old.len() - 1, 14), (old.len(), 1)] {
            let mut state = State::fresh(home);
            state.plans[FLIGHT].length = 1;
            let before = state.clone();
            let moved = move_from_bytes(&mut state, &old[..old_len], &mut store, Fault::None);
            assert_eq!((moved, state), (outcome, before));
        }
    }
}
