//! The service's values at the edges, and what is easily read wrong.

mod drone;

use drone::*;
use reference::layout::{Item, Message};
use reference::limits::*;
use reference::search::Command;
use reference::state::State;

#[test]
fn counts_at_the_sizes() {
    for (kind, size) in [(0, 256), (1, 64), (2, 32)] {
        let mut drone = Drone::fresh();
        assert_eq!(drone.count(STATION, kind, size), request(STATION, 0, kind));
        assert_eq!(drone.running(kind).unwrap().count, size);
        assert_eq!(drone.count(STATION, kind, size + 1), ack(STATION, 4, kind, 0));
        assert_eq!(drone.running(kind), None);
    }
}

#[test]
fn full_size_uploads() {
    let plans = [(0, nav(16), 256), (1, pair(5003, 1.0, 0.0), 64), (2, nav(5100), 32)];
    for (kind, item, size) in plans {
        let mut drone = Drone::fresh();
        for number in 1..=3 {
            let reply = drone.upload(kind, &vec![item; size]);
            assert_eq!(reply, ack(STATION, 0, kind, number));
            assert_eq!(usize::from(drone.length(kind)), size);
            assert_eq!(u32::from(drone.service.state.plans[usize::from(kind)].half), number % 2);
        }
    }
}

#[test]
fn x_limit_in_an_upload() {
    let mut drone = Drone::fresh();
    let at = |x| Item { x, ..nav(16) };
    assert_eq!(drone.upload(0, &[at(900_000_000)]), ack(STATION, 0, 0, 1));
    assert_eq!(drone.upload(0, &[at(900_000_001)]), ack(STATION, 10, 0, 0));
    assert_eq!(drone.length(0), 1);
    assert_eq!(drone.running(0), None);
}

#[test]
fn elapsed_runs_over() {
    let expires = |start, now| {
        let mut drone = Drone::fresh();
        drone.clock = start;
        drone.count(STATION, 0, 1);
        drone.clock = now;
        drone.tick(0).is_some()
    };
    assert!(!expires(4_294_967_200, 153));
    assert!(expires(4_294_967_200, 154));
    assert!(!expires(4_294_967_200, 4_294_967_199));
    assert!(expires(0, (1 << 31) - 1));
    assert!(!expires(0, 1 << 31));
}

#[test]
fn sixth_expiry_ends() {
    let mut drone = Drone::fresh();
    drone.count(STATION, 2, 2);
    for repeats in 1..=5 {
        drone.clock += 250;
        assert_eq!(drone.tick(2), request(STATION, 0, 2));
        assert_eq!(drone.running(2).unwrap().repeats, repeats);
        assert_eq!(drone.running(2).unwrap().start, drone.clock);
        assert_eq!(drone.tick(2), None);
    }
    drone.clock += 250;
    assert_eq!(drone.tick(2), ack(STATION, 15, 2, 0));
    assert_eq!(drone.tick(2), None);
    assert_eq!(drone.running(2), None);
}

#[test]
fn plan_number_runs_over() {
    let mut drone = Drone::fresh();
    drone.service.state.plans[0].number = u32::MAX;
    assert_eq!(drone.upload(0, &[nav(16)]), ack(STATION, 0, 0, 1));
}

#[test]
fn an_empty_plan_shows_zero() {
    let mut drone = Drone::fresh();
    drone.upload(1, &[nav(5000)]);
    let list = Message::RequestList { to: OWN, kind: 1 };
    let count = |count, number| Some(Message::Count { count, to: STATION, kind: 1, number });
    assert_eq!(drone.send(STATION, list), count(1, 1));
    assert_eq!(drone.count(STATION, 1, 0), ack(STATION, 0, 1, 0));
    assert_eq!(drone.send(STATION, list), count(0, 0));
    assert_eq!(drone.upload(1, &[nav(5000)]), ack(STATION, 0, 1, 2));
}

#[test]
fn takeoff_waypoint_jump_land() {
    let mut drone = Drone::fresh();
    drone.upload(0, &[nav(22), nav(16), pair(177, 1.0, 2.0), nav(21)]);
    for number in [0, 1, 1, 1, 3] {
        assert_eq!(drone.done(), Command::Fly(number));
    }
    assert_eq!(drone.done(), Command::Finished);
    assert_eq!(drone.service.state.current, 3);
}

#[test]
fn set_current_keeps_jump_counts() {
    let mut drone = Drone::fresh();
    drone.upload(0, &[nav(22), nav(16), pair(177, 1.0, 2.0), nav(21)]);
    for _ in 0..4 {
        drone.done();
    }
    assert_eq!(drone.service.state.jump_counts[0], 2);
    let current = Message::Current { seq: 1, total: 4, state: 0, mode: 0, numbers: [1, 0, 0] };
    assert_eq!(drone.send(STATION, Message::SetCurrent { seq: 1, to: OWN }), Some(current));
    assert_eq!(drone.service.state.jump_counts[0], 2);
    assert_eq!(drone.done(), Command::Fly(1));
    let refused = drone.raw(STATION, 41, &[4]);
    assert_eq!((refused.id, refused.len), (253, 21));
    assert_eq!(drone.reply[..21], *b"\x04no such mission item");
}

#[test]
fn param_4_nan_is_kept() {
    let mut drone = Drone::fresh();
    let mut waypoint = Item { current: 9, ..nav(16) };
    waypoint.params[3] = 0x7F80_0001;
    drone.upload(0, &[waypoint]);
    let reply = drone.send(OTHER, Message::RequestInt { seq: 0, to: OWN, kind: 0 });
    assert_eq!(reply, Some(Message::ItemInt(Item { to: OTHER, current: 1, ..waypoint })));
    assert_eq!(drone.store[352 * 8 + 3..352 * 8 + 8], [0x7F80_0001, 0, 0, 0, 0x0103_0010]);
}

/// Seq and kind follow from the place, whatever words a host writes.
#[test]
fn words_that_a_host_wrote() {
    let mut drone = Drone::fresh();
    drone.upload(1, &[nav(5000), pair(5003, 1.0, 0.0)]);
    let place = (352 + 256 + 1) * 8;
    drone.store[place..place + 8].copy_from_slice(&[1, 2, 3, 4, 5, 6, 7, 0x80FF_FFFE]);
    let reply = drone.send(STATION, Message::RequestInt { seq: 1, to: OWN, kind: 1 });
    let item = Item {
        params: [1, 2, 3, 4],
        x: 5,
        y: 6,
        z: 7,
        seq: 1,
        command: 0xFFFE,
        to: STATION,
        frame: 0xFF,
        current: 0,
        autocontinue: 0x80,
        kind: 1,
    };
    assert_eq!(reply, Some(Message::ItemInt(item)));
}

#[test]
fn a_fence_that_fails_leaves_the_old_one() {
    let mut drone = Drone::fresh();
    let vertex = |m| pair(5001, m, 0.0);
    assert_eq!(drone.upload(1, &[vertex(3.0); 3]), ack(STATION, 0, 1, 1));
    let bad = [vertex(3.0), vertex(3.0), vertex(4.0)];
    assert_eq!(drone.upload(1, &bad), ack(STATION, 5, 1, 0));
    assert_eq!((drone.length(1), drone.running(1)), (3, None));
    let reply = drone.send(STATION, Message::RequestList { to: OWN, kind: 1 });
    assert_eq!(reply, Some(Message::Count { count: 3, to: STATION, kind: 1, number: 1 }));
}

#[test]
fn the_old_plan_stands_until_the_last_item() {
    let mut drone = Drone::fresh();
    drone.upload(0, &[nav(16), nav(21)]);
    drone.done();
    drone.count(STATION, 0, 2);
    drone.item(STATION, nav(22));
    assert_eq!(drone.length(0), 2);
    assert_eq!(drone.done(), Command::Fly(1));
    let again = drone.item(STATION, nav(22));
    assert_eq!(again, request(STATION, 1, 0));
    let wrong = drone.item(STATION, Item { seq: 5, ..nav(999) });
    assert_eq!(wrong, request(STATION, 1, 0));
    assert_eq!(drone.item(STATION, Item { seq: 1, ..nav(16) }), ack(STATION, 0, 0, 2));
    assert_eq!((drone.service.state.current, drone.service.state.begun), (0, false));
    assert_eq!(drone.item(STATION, Item { seq: 1, ..nav(16) }), ack(STATION, 13, 0, 0));
}

#[test]
fn other_stations_are_denied() {
    let mut drone = Drone::fresh();
    drone.upload(0, &[nav(16)]);
    drone.count(STATION, 0, 2);
    assert_eq!(drone.count(OTHER, 0, 300), ack(OTHER, 14, 0, 0));
    assert_eq!(drone.count(OTHER, 0, 0), ack(OTHER, 14, 0, 0));
    assert_eq!(drone.item(OTHER, nav(16)), ack(OTHER, 14, 0, 0));
    drone.count(OTHER, 1, 2);
    for kind in [0, 255] {
        let clear = Message::ClearAll { to: OWN, kind };
        assert_eq!(drone.send(OTHER, clear), ack(OTHER, 14, kind, 0));
    }
    assert!(drone.running(0).is_some() && drone.running(1).is_some());
    assert_eq!(drone.length(0), 1);
}

#[test]
fn acks_end_only_their_upload() {
    let mut drone = Drone::fresh();
    drone.count(STATION, 0, 2);
    drone.count(STATION, 1, 2);
    let ack = |result, kind| Message::Ack { to: OWN, result, kind, number: 0 };
    for kind in [0, 1, 2, 9, 255] {
        assert_eq!(drone.send(STATION, ack(0, kind)), None);
        assert_eq!(drone.send(OTHER, ack(1, kind)), None);
    }
    assert!(drone.running(0).is_some() && drone.running(1).is_some());
    assert_eq!(drone.send(STATION, ack(200, 1)), None);
    assert!(drone.running(0).is_some() && drone.running(1).is_none());
}

#[test]
fn kind_comes_first() {
    let mut drone = Drone::fresh();
    drone.count(STATION, 0, 2);
    for kind in [3, 7, 255] {
        assert_eq!(drone.count(STATION, kind, 0), ack(STATION, 3, kind, 0));
        assert_eq!(drone.item(STATION, Item { kind, ..nav(16) }), ack(STATION, 3, kind, 0));
        let list = Message::RequestList { to: OWN, kind };
        assert_eq!(drone.send(STATION, list), ack(STATION, 3, kind, 0));
    }
    let clear = |kind| Message::ClearAll { to: OWN, kind };
    assert_eq!(drone.send(STATION, clear(254)), ack(STATION, 3, 254, 0));
    assert!(drone.running(0).is_some());
    assert_eq!(drone.send(STATION, clear(255)), ack(STATION, 0, 255, 0));
    assert!(drone.running(0).is_none());
}

#[test]
fn a_sixteenth_jump_has_no_room() {
    let mut drone = Drone::fresh();
    let mut items = vec![pair(177, 16.0, 1.0); 15];
    items.extend([nav(16), nav(16)]);
    assert_eq!(drone.upload(0, &items), ack(STATION, 0, 0, 1));
    items[15] = pair(177, 16.0, 1.0);
    drone.count(STATION, 0, 17);
    for (seq, item) in (0..15).zip(&items) {
        drone.item(STATION, Item { seq, ..*item });
    }
    let sixteenth = Item { seq: 15, ..items[15] };
    assert_eq!(drone.item(STATION, sixteenth), ack(STATION, 4, 0, 0));
}

#[test]
fn refusals_in_order() {
    let mut drone = Drone::fresh();
    let outcome = |drone: &mut Drone, id, payload: &[u8]| drone.raw(STATION, id, payload).outcome;
    drone.store.truncate(STORE_WORDS - 1);
    drone.reply.truncate(REPLY_BYTES - 1);
    drone.service.state.current = 3;
    assert_eq!(outcome(&mut drone, 300, &[]), 14);
    assert_eq!(drone.service.done(&drone.store), (14, Command::Stuck));
    drone.store.push(0xEEEE_EEEE);
    assert_eq!(outcome(&mut drone, 300, &[]), 15);
    assert_eq!(drone.service.done(&drone.store), (15, Command::Stuck));
    drone.service.state.current = 0;
    assert_eq!(outcome(&mut drone, 300, &[]), 10);
    assert_eq!(outcome(&mut drone, 47, &[0]), 10);
    assert_eq!(drone.service.timer(3, 0, &drone.store, &mut drone.reply).outcome, 10);
    drone.reply.push(0xA5);
    assert_eq!(outcome(&mut drone, 300, &[]), 11);
    assert_eq!(drone.service.timer(3, 0, &drone.store, &mut drone.reply).outcome, 12);
    for id in [0, 37, 39, 40, 42, 46, 253, 300, 44 + 65536] {
        assert_eq!(outcome(&mut drone, id, &[2, 2, 2, 2]), 12);
    }
    assert_eq!(outcome(&mut drone, 43, &[2]), 13);
    assert_eq!(outcome(&mut drone, 43, &[0, 2]), 13);
    assert_eq!(outcome(&mut drone, 43, &[1, 1]), 0);
    assert_eq!(drone.service.state, State::fresh(false));
}
