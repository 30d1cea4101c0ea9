//! What the lists of calls cannot reach: refusals by lent memory and by the state's ranges, numbers that run over, and home in item 0.

use super::*;

const DRONE: Station = Station { system: 1, component: 1 };
const TABLET: Station = Station { system: 255, component: 190 };

/// A message call that is lent so many words of store and bytes of reply: its outcome, and the reply.
fn call(
    service: &mut Service,
    id: u32,
    payload: &[u8],
    clock: u32,
    lent: (usize, usize),
) -> (u8, Vec<u8>) {
    let mut reply = vec![0; lent.1];
    let message = Message { own: DRONE, sender: TABLET, id, payload, clock };
    let served = service.message(&message, lent.0, &mut reply);
    (served.outcome, reply[..served.len].to_vec())
}

const LENT: (usize, usize) = (STORE_WORDS, REPLY_BYTES);

fn upload() -> Upload {
    Upload::whole(TABLET, 32, 0)
}

/// A partial upload of items 3 to 5 of eight.
fn partial() -> Upload {
    Upload { next: 3, partial: true, first: 3, last: 5, ..Upload::whole(TABLET, 8, 0) }
}

#[test]
fn refusals_come_in_their_order() {
    let mut service = Service::fresh(false);
    service.plans[FENCE].length = 65;
    let (short_store, short_reply) = (STORE_WORDS - 1, REPLY_BYTES - 1);
    assert_eq!(call(&mut service, 0, &[], 0, (short_store, short_reply)).0, 14);
    assert_eq!(call(&mut service, 0, &[], 0, (STORE_WORDS, short_reply)).0, 15);
    service.plans[FENCE].length = 64;
    assert_eq!(call(&mut service, 0, &[], 0, (STORE_WORDS, short_reply)).0, 10);
    assert_eq!(call(&mut service, 0, &[], 0, LENT).0, 11);
    assert_eq!(call(&mut service, 42, &[2, 2], 0, LENT).0, 12);
    assert_eq!(call(&mut service, REQUEST_LIST, &[2, 1], 0, LENT).0, 13);
    assert_eq!(call(&mut service, REQUEST_LIST, &[1, 0], 0, LENT).0, 0);
    let mut reply = [0; REPLY_BYTES];
    let mut timer = |service: &mut Service, store, reply_end| {
        service.timer(3, 0, store, &mut reply[..reply_end])
    };
    assert_eq!(timer(&mut service, short_store, short_reply).outcome, 14);
    assert_eq!(timer(&mut service, STORE_WORDS, short_reply).outcome, 10);
    assert_eq!(timer(&mut service, STORE_WORDS, REPLY_BYTES).outcome, 12);
}

#[test]
fn each_number_has_its_range() {
    let spoil: [fn(&mut Service); 11] = [
        |service| service.plans[FLIGHT].length = 257,
        |service| service.plans[RALLY].length = 33,
        |service| service.plans[RALLY].upload = Some(Upload { count: 0, ..upload() }),
        |service| service.plans[RALLY].upload = Some(Upload { count: 33, ..upload() }),
        |service| service.plans[RALLY].upload = Some(Upload { next: 32, ..upload() }),
        |service| service.plans[RALLY].upload = Some(Upload { repeats: 6, ..upload() }),
        |service| service.plans[RALLY].upload = Some(Upload { first: 1, next: 1, ..upload() }),
        |service| service.plans[RALLY].upload = Some(Upload { last: 30, ..upload() }),
        |service| service.current = 1,
        |service| service.runs[0] = 32_768,
        |service| service.runs[MOST_JUMPS - 1] = 65_535,
    ];
    for spoil in spoil {
        let mut service = Service::fresh(false);
        spoil(&mut service);
        assert_eq!(call(&mut service, ACK, &[1], 0, LENT), (15, vec![]));
    }
    let mut service = Service::fresh(false);
    service.plans[FLIGHT].length = 256;
    service.plans[RALLY].upload = Some(Upload { next: 31, repeats: 5, ..upload() });
    service.current = 255;
    service.runs = [32_767; MOST_JUMPS];
    assert_eq!(call(&mut service, ACK, &[1], 0, LENT), (1, vec![]));
}

#[test]
fn each_number_of_a_partial_upload_has_its_range() {
    let served = |length, upload: Upload| {
        let mut service = Service::fresh(false);
        service.plans[FENCE].length = length;
        service.plans[FENCE].upload = Some(upload);
        call(&mut service, ACK, &[1], 0, LENT).0
    };
    for next in 3..=5 {
        assert_eq!(served(8, Upload { next, repeats: 5, ..partial() }), 1);
    }
    let bad = [
        Upload { count: 7, ..partial() },
        Upload { count: 9, ..partial() },
        Upload { next: 2, ..partial() },
        Upload { next: 6, ..partial() },
        Upload { last: 8, ..partial() },
        Upload { first: 4, ..partial() },
        Upload { repeats: 6, ..partial() },
    ];
    for upload in bad {
        assert_eq!(served(8, upload), 15);
    }
    assert_eq!(served(7, partial()), 15);
}

#[test]
fn the_clock_runs_over() {
    let mut service = Service::fresh(false);
    let count = [1, 0, 1, 1, RALLY as u8];
    let asked = (0, vec![0, 0, 255, 190, RALLY as u8]);
    assert_eq!(call(&mut service, COUNT, &count, 4_294_967_200, LENT), asked);
    for (clock, outcome) in [(153, 1), (4_294_967_199, 1), (154, 0)] {
        let served = service.timer(RALLY as u8, clock, STORE_WORDS, &mut [0; REPLY_BYTES]);
        assert_eq!(served.outcome, outcome, "at {clock}");
    }
}

#[test]
fn the_plan_number_runs_over_to_one() {
    let mut service = Service::fresh(false);
    service.plans[RALLY].number = u32::MAX;
    call(&mut service, COUNT, &[1, 0, 1, 1, RALLY as u8], 0, LENT);
    let accepted = (0, vec![255, 190, 0, RALLY as u8, 1]);
    let item = item(RALLY, 0, 5100, 0, 0.0);
    assert_eq!(call(&mut service, ITEM_INT, &item, 0, LENT), accepted);
}

/// Bytes of an item of a kind.
fn item(kind: usize, seq: u16, command: u16, frame: u8, param1: f32) -> [u8; ITEM_BYTES] {
    let mut bytes = [0; ITEM_BYTES];
    bytes[..4].copy_from_slice(&param1.to_le_bytes());
    bytes[28..30].copy_from_slice(&seq.to_le_bytes());
    bytes[30..32].copy_from_slice(&command.to_le_bytes());
    (bytes[34], bytes[37]) = (frame, kind as u8);
    bytes
}

/// The result that the last of some items gets, 0 where the next one is requested; a message before them starts the upload.
fn result_of(service: &mut Service, id: u32, start: &[u8], items: &[[u8; ITEM_BYTES]]) -> u8 {
    call(service, id, start, 0, LENT);
    let reply = items.iter().map(|item| call(service, ITEM_INT, item, 0, LENT).1).last();
    match reply.unwrap_or_default()[..] {
        [255, 190, result, ..] => result,
        _ => 0,
    }
}

fn count(kind: usize, count: u8) -> [u8; 5] {
    [count, 0, 1, 1, kind as u8]
}

/// The result that the last item of a flight plan gets; those before it are waypoints.
fn flight_result(service: &mut Service, last: [u8; ITEM_BYTES]) -> u8 {
    let seq = last[28];
    let mut items: Vec<_> = (0..seq).map(|seq| item(FLIGHT, seq.into(), 16, 3, 0.0)).collect();
    items.push(last);
    result_of(service, COUNT, &count(FLIGHT, seq + 1), &items)
}

#[test]
fn home_is_a_waypoint() {
    for command in [16, 17, 18, 19, 20, 21, 22, 31, 112, 114, 115, 177, 178, 183, 30, 5100] {
        let expected = if command == 16 { [0, 2] } else { [3, 3] };
        let at_0 = [3, 1].map(|frame| item(FLIGHT, 0, command, frame, 1.0));
        let whole = at_0.map(|item| flight_result(&mut Service::fresh(true), item));
        assert_eq!(whole, expected, "{command}");
        let partial = at_0.map(|changed| {
            let mut service = Service::fresh(true);
            assert_eq!(flight_result(&mut service, item(FLIGHT, 1, 22, 3, 0.0)), 0);
            result_of(&mut service, WRITE_PARTIAL_LIST, &[0; 6], &[changed])
        });
        assert_eq!(partial, expected, "{command}");
    }
    assert_eq!(flight_result(&mut Service::fresh(false), item(FLIGHT, 0, 22, 3, 0.0)), 0);
}

#[test]
fn fence_and_rally_have_no_home() {
    for (kind, command) in [(FENCE, 5000), (RALLY, 5100)] {
        let result = |command| {
            let items = [item(kind, 0, command, 3, 0.0)];
            result_of(&mut Service::fresh(true), COUNT, &count(kind, 1), &items)
        };
        assert_eq!((result(command), result(16)), (0, 3));
    }
}

#[test]
fn no_jump_leads_home() {
    for (target, expected) in [(0.0, [6, 0]), (-0.0, [6, 0]), (1.0, [0, 0]), (2.0, [6, 6])] {
        let jump = item(FLIGHT, 2, 177, 2, target);
        let results = [true, false].map(|home| flight_result(&mut Service::fresh(home), jump));
        assert_eq!(results, expected, "{target}");
    }
}

#[test]
fn set_current_0_chooses_1() {
    let chosen = |service: &mut Service, seq| call(service, SET_CURRENT, &[seq], 0, LENT).1;
    let mut service = Service::fresh(true);
    for last in [None, Some(0)] {
        last.map(|seq| flight_result(&mut service, item(FLIGHT, seq, 16, 3, 0.0)));
        assert_eq!(chosen(&mut service, 0), NO_SUCH_ITEM);
        assert_eq!(chosen(&mut service, 1), NO_SUCH_ITEM);
    }
    flight_result(&mut service, item(FLIGHT, 2, 16, 3, 0.0));
    for (seq, chooses) in [(0, 1), (1, 1), (2, 2), (0, 1)] {
        assert_eq!(chosen(&mut service, seq), [chooses, 0, 3, 0, 0, 0, 2]);
        assert_eq!(service.current, chooses.into());
    }
    assert_eq!(chosen(&mut service, 3), NO_SUCH_ITEM);
}

#[test]
fn home_stays() {
    let mut service = Service::fresh(true);
    let (home, takeoff) = (item(FLIGHT, 0, 16, 3, 0.0), item(FLIGHT, 0, 22, 3, 0.0));
    for cleared in [FLIGHT as u8, FENCE as u8, RALLY as u8, ALL_KINDS] {
        assert_eq!(flight_result(&mut service, home), 0);
        assert_eq!(result_of(&mut service, WRITE_PARTIAL_LIST, &[0; 6], &[home]), 0);
        assert_eq!(flight_result(&mut service, takeoff), 3);
        call(&mut service, CLEAR_ALL, &[1, 1, cleared], 0, LENT);
        assert_eq!(flight_result(&mut service, takeoff), 3);
        call(&mut service, COUNT, &count(FLIGHT, 0), 0, LENT);
        assert_eq!((service.current, flight_result(&mut service, takeoff)), (0, 3));
    }
}
