//! Items and plans that are uploaded.

use bench::service::{Station, FENCE, FLIGHT, ITEM_BYTES, RALLY};

use crate::random::Random;

/// The drone.
pub const OWN: Station = Station { system: 1, component: 1 };

/// An ITEM_INT's bytes.
pub type Payload = [u8; ITEM_BYTES];

/// An item of one kind with these params.
pub fn item(kind: usize, seq: usize, command: u16, frame: u8, params: [f32; 4]) -> Payload {
    let mut bytes = [0; ITEM_BYTES];
    for (place, param) in bytes.chunks_exact_mut(4).zip(params) {
        place.copy_from_slice(&param.to_le_bytes());
    }
    bytes[16..20].copy_from_slice(&(476_201_000 + 31 * seq as i32).to_le_bytes());
    bytes[20..24].copy_from_slice(&(93_705_000 - 17 * seq as i32).to_le_bytes());
    bytes[24..28].copy_from_slice(&(10.0 + seq as f32 / 4.0).to_le_bytes());
    bytes[28..30].copy_from_slice(&(seq as u16).to_le_bytes());
    bytes[30..32].copy_from_slice(&command.to_le_bytes());
    let autocontinue = u8::from(seq % 8 != 5);
    bytes[32..].copy_from_slice(&[OWN.system, OWN.component, frame, 0, autocontinue, kind as u8]);
    bytes
}

fn jump(seq: usize, target: usize, repeat: f32) -> Payload {
    item(FLIGHT, seq, 177, 2, [target as f32, repeat, 0.0, 0.0])
}

/// A flight item of some command that is not a jump.
fn flight_item(random: &mut Random, seq: usize) -> Payload {
    let amount = random.below(60) as f32;
    let frame = random.of(&[0, 3, 5, 6, 10, 11]);
    match random.of(&[16, 16, 16, 17, 18, 19, 20, 21, 22, 31, 112, 114, 115, 178, 183]) {
        20 => item(FLIGHT, seq, 20, 2, [0.0; 4]),
        115 => item(FLIGHT, seq, 115, frame, [6.0 * amount, 0.0, 1.0, 0.0]),
        178 => item(FLIGHT, seq, 178, 2, [1.0, amount, -1.0, 0.0]),
        183 => item(FLIGHT, seq, 183, 2, [1.0 + (seq % 16) as f32, 1000.0 + amount, 0.0, 0.0]),
        command => item(FLIGHT, seq, command, frame, [amount, 2.0, 0.0, f32::NAN]),
    }
}

/// A flight plan with jumps where the test says so.
pub fn flight(random: &mut Random, count: usize, is_jump: impl Fn(usize) -> bool) -> Vec<Payload> {
    let one = |seq: usize| {
        if !is_jump(seq) {
            return flight_item(random, seq);
        }
        let target = (seq + 1 + random.below(count - 1)) % count;
        let repeat = random.of(&[-1.0, 0.0, 2.0, 32_767.0, f32::NAN]);
        jump(seq, target, repeat)
    };
    (0..count).map(one).collect()
}

/// A fence: a return point, polygons and circles.
fn fence(random: &mut Random, count: usize) -> Vec<Payload> {
    let mut items = Vec::with_capacity(count);
    while items.len() < count {
        let (at, left) = (items.len(), count - items.len());
        if at == 0 && random.one_in(2) {
            items.push(item(FENCE, 0, 5000, 3, [0.0; 4]));
        } else if left < 3 || random.one_in(3) {
            let command = random.of(&[5003, 5004]);
            items.push(item(FENCE, at, command, 3, [20.5 + at as f32, 0.0, 0.0, 0.0]));
        } else {
            let vertices = 3 + random.below(left.min(14) - 2);
            let command = random.of(&[5001, 5002]);
            let params = [vertices as f32, 0.0, 0.0, 0.0];
            items.extend((at..at + vertices).map(|seq| item(FENCE, seq, command, 3, params)));
        }
    }
    items
}

/// A plan of one kind with so many items. Jumps stand seventeen apart.
pub fn plan(random: &mut Random, kind: usize, count: usize) -> Vec<Payload> {
    match kind {
        FLIGHT => flight(random, count, |seq| count > 1 && seq % 17 == 16),
        FENCE => fence(random, count),
        _ => (0..count).map(|seq| item(RALLY, seq, 5100, 3, [0.0; 4])).collect(),
    }
}

/// Params at the edges of the rules on them.
const PARAMS: [f32; 22] = [
    f32::NAN,
    f32::INFINITY,
    f32::NEG_INFINITY,
    -0.0,
    0.5,
    1.0,
    -1.0,
    -2.0,
    2.0,
    3.0,
    16.0,
    17.0,
    64.0,
    65.0,
    255.0,
    256.0,
    360.0,
    361.0,
    500.0,
    2500.0,
    32_768.0,
    2_147_483_648.0,
];

/// An item of the same number with one field changed, so that most are not valid any more.
pub fn changed(random: &mut Random, mut item: Payload) -> Payload {
    let param = random.of(&PARAMS).to_le_bytes();
    match random.below(7) {
        0 => {
            item[30..32].copy_from_slice(&random.of(&[30u16, 16, 20, 177, 183, 5001]).to_le_bytes())
        }
        1 => item[34] = random.of(&[1, 2, 4, 255]),
        2 => item[..4].copy_from_slice(&param),
        3 => item[4..8].copy_from_slice(&param),
        4 => {
            item[16..20].copy_from_slice(&random.of(&[900_000_001i32, -900_000_000]).to_le_bytes())
        }
        5 => item[20..24].copy_from_slice(&random.of(&[i32::MIN, 1_800_000_000]).to_le_bytes()),
        _ => item[24..28].copy_from_slice(&param),
    }
    item
}
