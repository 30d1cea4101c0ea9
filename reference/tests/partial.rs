//! Partial uploads (request M-108): ranges, what is requested and taken, and what
//! the last item does.

#[path = "drone/changes.rs"]
mod changes;
mod drone;

use drone::*;
use reference::layout::{Address, Item, Message};
use reference::limits::*;
use reference::search::Command;
use reference::state::Upload;

const FLIGHT_KIND: u8 = FLIGHT as u8;
const FENCE_KIND: u8 = FENCE as u8;
const RALLY_KIND: u8 = RALLY as u8;

impl Drone {
    /// The items of a plan as they are read back, but for address and current field.
    fn plan(&mut self, kind: u8) -> Vec<Item> {
        let asked = |drone: &mut Drone, seq| match drone
            .send(OTHER, Message::RequestInt { seq, to: OWN, kind })
        {
            Some(Message::ItemInt(item)) => {
                Item { to: Address::default(), current: 0, seq: 0, kind: 0, ..item }
            }
            other => panic!("{other:?}"),
        };
        (0..self.length(kind)).map(|seq| asked(self, seq)).collect()
    }
}

/// A flight item that differs from others by its x.
fn at(x: i32) -> Item {
    Item { x, ..nav(16) }
}

fn waypoints(count: i32) -> Vec<Item> {
    (0..count).map(at).collect()
}

/// A jump to item 0.
fn jump() -> Item {
    pair(177, 0.0, 2.0)
}

#[test]
fn ranges() {
    let mut drone = Drone::fresh();
    assert_eq!(drone.change(STATION, FLIGHT_KIND, 0, 0), ack(STATION, 13, 0, 0));
    drone.upload(FLIGHT_KIND, &waypoints(4));
    for (start, end) in [(0, 0), (0, 3), (3, 3), (1, 2)] {
        let reply = drone.change(STATION, FLIGHT_KIND, start, end);
        assert_eq!(reply, request(STATION, start as u16, 0), "{start} {end}");
        let items = (start as u16, end as u16);
        assert_eq!(drone.running(FLIGHT_KIND), Some(Upload::partial(STATION, 4, items, 0)));
    }
    for (start, end) in [(2, 1), (0, 4), (4, 4), (-1, 2), (-1, -1), (i16::MIN, 3), (0, i16::MIN)] {
        drone.change(STATION, FLIGHT_KIND, 0, 3);
        let reply = drone.change(STATION, FLIGHT_KIND, start, end);
        assert_eq!(reply, ack(STATION, 13, 0, 0), "{start} {end}");
        assert_eq!(drone.running(FLIGHT_KIND), None);
    }
    assert_eq!(drone.change(STATION, 3, 0, 0), ack(STATION, 3, 3, 0));
    assert_eq!(drone.plan(FLIGHT_KIND), waypoints(4));
}

#[test]
fn at_the_sizes() {
    let plans = [(0, nav(16), 256), (1, pair(5003, 1.0, 0.0), 64), (2, nav(5100), 32)];
    for (kind, item, size) in plans {
        let mut drone = Drone::fresh();
        drone.upload(kind, &vec![item; size]);
        let end = size as i16 - 1;
        assert_eq!(drone.change(STATION, kind, end, end + 1), ack(STATION, 13, kind, 0));
        let changed = Item { y: 7, ..item };
        let reply = drone.change_all(kind, end as u16, &[changed]);
        assert_eq!(reply, ack(STATION, 0, kind, 2));
        let mut expected = vec![item; size];
        expected[size - 1] = changed;
        assert_eq!(drone.plan(kind), expected);
    }
}

#[test]
fn the_plan_changes_at_the_last_item() {
    let mut drone = Drone::fresh();
    drone.upload(FLIGHT_KIND, &waypoints(5));
    drone.change(STATION, FLIGHT_KIND, 1, 3);
    let places = drone.service.plan_shelf(FLIGHT).offset(0)..;
    let before = drone.store[places.clone()].to_vec();
    for seq in [1, 2] {
        let reply = drone.item(STATION, Item { seq, ..at(100) });
        assert_eq!(reply, request(STATION, seq + 1, 0));
        assert_eq!(drone.plan(FLIGHT_KIND), waypoints(5));
    }
    for seq in [0, 1, 2, 4, 5] {
        let reply = drone.item(STATION, Item { seq, ..at(200) });
        assert_eq!(reply, request(STATION, 3, 0));
    }
    let list = Message::RequestList { to: OWN, kind: 0 };
    let listed = |number| Some(Message::Count { count: 5, to: STATION, kind: 0, number });
    assert_eq!(drone.send(STATION, list), listed(1));
    assert_eq!(drone.store[places], before);
    let reply = drone.item(STATION, Item { seq: 3, ..at(100) });
    assert_eq!(reply, ack(STATION, 0, 0, 2));
    assert_eq!(drone.send(STATION, list), listed(2));
    assert_eq!(drone.plan(FLIGHT_KIND), [at(0), at(100), at(100), at(100), at(4)]);
}

#[test]
fn current_and_begun_stay_and_counts_become_0() {
    for begun in [false, true] {
        let mut drone = Drone::fresh();
        drone.upload(FLIGHT_KIND, &[nav(22), nav(16), pair(177, 1.0, 2.0), nav(21)]);
        for _ in 0..3 {
            drone.done();
        }
        if !begun {
            drone.send(STATION, Message::SetCurrent { seq: 1, to: OWN });
        }
        let reply = drone.change_all(FLIGHT_KIND, 1, &[at(7)]);
        assert_eq!(reply, ack(STATION, 0, 0, 2));
        let state = &drone.service.state;
        assert_eq!((state.current, state.begun), (1, begun));
        assert_eq!(state.jump_counts, [0; MAX_JUMPS]);
        assert_eq!(drone.done(), Command::Fly(1));
    }
}

#[test]
fn a_current_item_may_become_a_jump() {
    let mut drone = Drone::fresh();
    drone.upload(FLIGHT_KIND, &waypoints(3));
    drone.done();
    drone.done();
    assert_eq!(drone.change_all(FLIGHT_KIND, 0, &[at(5), jump(), at(6)]), ack(STATION, 0, 0, 2));
    assert_eq!((drone.service.state.current, drone.service.state.begun), (1, true));
    assert_eq!(drone.done(), Command::Fly(2));
}

#[test]
fn targets_reach_to_the_stored_length() {
    let mut drone = Drone::fresh();
    drone.upload(FLIGHT_KIND, &waypoints(4));
    for (target, result) in [(3.0, 0), (0.0, 0), (4.0, 6), (1.0, 6)] {
        let reply = drone.change_all(FLIGHT_KIND, 1, &[pair(177, target, 1.0)]);
        let number = drone.service.state.plans[FLIGHT].number;
        let number = if result == 0 { number } else { 0 };
        assert_eq!(reply, ack(STATION, result, 0, number), "{target}");
        assert_eq!(drone.running(FLIGHT_KIND), None);
    }
}

/// A flight plan of 15 jumps and so many waypoints behind them.
fn fifteen_jumps(waypoints: usize) -> Vec<Item> {
    let mut items = vec![pair(177, 16.0, 1.0); MAX_JUMPS];
    items.extend(vec![nav(16); waypoints]);
    items
}

#[test]
fn jumps_are_counted_in_the_whole() {
    let mut drone = Drone::fresh();
    let plan = fifteen_jumps(4);
    drone.upload(FLIGHT_KIND, &plan);
    assert_eq!(drone.change_all(FLIGHT_KIND, 15, &[jump()]), ack(STATION, 4, 0, 0));
    let not_last = drone.change_all(FLIGHT_KIND, 15, &[jump(), nav(16)]);
    assert_eq!(not_last, ack(STATION, 4, 0, 0));
    let state = drone.service.state.clone();
    let invalid = drone.change_all(FLIGHT_KIND, 15, &[jump(), nav(30)]);
    assert_eq!((invalid, &drone.service.state), (ack(STATION, 3, 0, 0), &state));
    assert_eq!(drone.plan(FLIGHT_KIND), plan);
    assert_eq!(drone.change_all(FLIGHT_KIND, 14, &[nav(16), jump()]), ack(STATION, 0, 0, 2));
    assert_eq!(drone.change_all(FLIGHT_KIND, 14, &[jump(), nav(16)]), ack(STATION, 0, 0, 3));
    assert_eq!(drone.plan(FLIGHT_KIND)[14..], [jump(), nav(16), nav(16), nav(16), nav(16)]);
}

/// Sixteen new jumps in place of waypoints are taken one by one, and refused at the last.
#[test]
fn jumps_too_many_are_refused_at_the_last_item() {
    let mut drone = Drone::fresh();
    let plan = waypoints(20);
    drone.upload(FLIGHT_KIND, &plan);
    assert_eq!(drone.change_all(FLIGHT_KIND, 2, &[jump(); 17]), ack(STATION, 4, 0, 0));
    assert_eq!(drone.plan(FLIGHT_KIND), plan);
    assert_eq!(drone.change_all(FLIGHT_KIND, 2, &[jump(); 15]), ack(STATION, 0, 0, 2));
}

#[test]
fn the_fence_rule_is_applied_to_the_whole() {
    let mut drone = Drone::fresh();
    let vertex = |m| pair(5001, m, 0.0);
    let circle = pair(5003, 9.0, 0.0);
    let plan = [&[vertex(3.0); 3][..], &[circle; 2]].concat();
    drone.upload(FENCE_KIND, &plan);
    assert_eq!(drone.change_all(FENCE_KIND, 2, &[circle]), ack(STATION, 5, 1, 0));
    assert_eq!(drone.change_all(FENCE_KIND, 3, &[vertex(3.0)]), ack(STATION, 5, 1, 0));
    assert_eq!(drone.change_all(FENCE_KIND, 0, &[vertex(5.0); 3]), ack(STATION, 5, 1, 0));
    assert_eq!((drone.length(FENCE_KIND), drone.running(FENCE_KIND)), (5, None));
    assert_eq!(drone.plan(FENCE_KIND), plan);
    assert_eq!(drone.change_all(FENCE_KIND, 0, &[vertex(5.0); 5]), ack(STATION, 0, 1, 2));
    let ended = drone.change_all(FENCE_KIND, 0, &[circle, circle]);
    assert_eq!(ended, ack(STATION, 5, 1, 0));
}

#[test]
fn running_uploads() {
    let mut drone = Drone::fresh();
    drone.upload(RALLY_KIND, &[nav(5100); 3]);
    drone.change(STATION, RALLY_KIND, 1, 2);
    let running = drone.running(RALLY_KIND);
    for (start, end) in [(0, 0), (2, 1), (-1, 7)] {
        assert_eq!(drone.change(OTHER, RALLY_KIND, start, end), ack(OTHER, 14, 2, 0));
    }
    assert_eq!(drone.count(OTHER, RALLY_KIND, 0), ack(OTHER, 14, 2, 0));
    assert_eq!(drone.item(OTHER, Item { seq: 1, kind: 2, ..nav(5100) }), ack(OTHER, 14, 2, 0));
    assert_eq!(drone.running(RALLY_KIND), running);
    assert_eq!(drone.count(STATION, RALLY_KIND, 2), request(STATION, 0, 2));
    assert_eq!(drone.running(RALLY_KIND), Some(Upload::whole(STATION, 2, 0)));
    assert_eq!(drone.change(STATION, RALLY_KIND, 2, 2), request(STATION, 2, 2));
    assert_eq!(drone.count(STATION, RALLY_KIND, 0), ack(STATION, 0, 2, 0));
    assert_eq!(drone.running(RALLY_KIND), None);
    assert_eq!(drone.change(STATION, RALLY_KIND, 0, 0), ack(STATION, 13, 2, 0));
}

#[test]
fn expiries_ask_for_the_next_item() {
    let mut drone = Drone::fresh();
    drone.upload(RALLY_KIND, &[nav(5100); 5]);
    drone.change(STATION, RALLY_KIND, 1, 4);
    drone.item(STATION, Item { seq: 1, kind: 2, ..nav(5100) });
    for _ in 0..MAX_REPEATS {
        drone.clock += EXPIRY_MS;
        assert_eq!(drone.tick(RALLY_KIND), request(STATION, 2, 2));
    }
    drone.clock += EXPIRY_MS;
    assert_eq!(drone.tick(RALLY_KIND), ack(STATION, 15, 2, 0));
    assert_eq!(drone.item(STATION, Item { seq: 2, kind: 2, ..nav(5100) }), ack(STATION, 13, 2, 0));
    assert_eq!(drone.length(RALLY_KIND), 5);
}

/// The whole has what stands in the store at the last item, whoever wrote it.
#[test]
fn words_that_a_host_wrote() {
    let mut drone = Drone::fresh();
    drone.upload(FLIGHT_KIND, &waypoints(4));
    drone.change(STATION, FLIGHT_KIND, 1, 2);
    drone.item(STATION, Item { seq: 1, ..at(100) });
    let (plan, made) = (drone.service.plan_shelf(FLIGHT), drone.service.upload_shelf(FLIGHT));
    plan.put(&mut drone.store, 0, &nav(30));
    plan.put(&mut drone.store, 1, &at(300));
    made.put(&mut drone.store, 1, &at(400));
    made.put(&mut drone.store, 3, &at(500));
    assert_eq!(drone.item(STATION, Item { seq: 2, ..at(200) }), ack(STATION, 0, 0, 2));
    assert_eq!(drone.plan(FLIGHT_KIND), [nav(30), at(400), at(200), at(3)]);
}
