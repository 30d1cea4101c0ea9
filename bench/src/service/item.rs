//! A mission item, and when it is valid.

use super::{result, FENCE, FLIGHT, ITEM_BYTES, MOST_JUMPS, RALLY};

const WAYPOINT: u16 = 16;
pub const DO_JUMP: u16 = 177;
pub const RETURN_POINT: u16 = 5000;
pub const VERTEX_INCLUSION: u16 = 5001;
pub const VERTEX_EXCLUSION: u16 = 5002;

/// An ITEM_INT's bytes as they came. Its address and current field are those of each reply.
#[derive(Clone, Copy)]
pub struct Item(pub [u8; ITEM_BYTES]);

impl Item {
    pub const EMPTY: Item = Item([0; ITEM_BYTES]);

    fn word(&self, at: usize) -> u32 {
        u32::from_le_bytes([self.0[at], self.0[at + 1], self.0[at + 2], self.0[at + 3]])
    }

    fn float(&self, at: usize) -> f32 {
        f32::from_bits(self.word(at))
    }

    pub fn param1(&self) -> f32 {
        self.float(0)
    }

    fn param2(&self) -> f32 {
        self.float(4)
    }

    pub fn seq(&self) -> u16 {
        u16::from_le_bytes([self.0[28], self.0[29]])
    }

    pub fn command(&self) -> u16 {
        u16::from_le_bytes([self.0[30], self.0[31]])
    }

    fn frame(&self) -> u8 {
        self.0[34]
    }

    pub fn kind(&self) -> u8 {
        self.0[37]
    }
}

/// What a command asks of an item's params.
#[derive(Clone, Copy)]
enum Params {
    Free,
    Amount,
    Heading,
    Jump,
    Speed,
    Servo,
    Vertices,
    Radius,
}

/// Of each command the kind that it belongs to, whether it is positional, and the rule on its params.
fn command_rule(command: u16) -> Option<(usize, bool, Params)> {
    Some(match command {
        WAYPOINT | 18 | 19 => (FLIGHT, true, Params::Amount),
        17 | 21 | 22 | 31 => (FLIGHT, true, Params::Free),
        20 => (FLIGHT, false, Params::Free),
        112 | 114 => (FLIGHT, false, Params::Amount),
        115 => (FLIGHT, false, Params::Heading),
        DO_JUMP => (FLIGHT, false, Params::Jump),
        178 => (FLIGHT, false, Params::Speed),
        183 => (FLIGHT, false, Params::Servo),
        RETURN_POINT => (FENCE, true, Params::Free),
        VERTEX_INCLUSION | VERTEX_EXCLUSION => (FENCE, true, Params::Vertices),
        5003 | 5004 => (FENCE, true, Params::Radius),
        5100 => (RALLY, true, Params::Free),
        _ => return None,
    })
}

/// The verdict on the expected item of an upload, with so many jumps before it, and with or without home in item 0: 0, or the first reason against it.
#[inline(always)]
pub fn verdict(item: &Item, kind: usize, count: u16, jumps: usize, home: bool) -> u8 {
    let Some((belongs, positional, params)) = command_rule(item.command()) else {
        return result::UNSUPPORTED;
    };
    if belongs != kind || home && item.seq() == 0 && item.command() != WAYPOINT {
        return result::UNSUPPORTED;
    }
    match item.frame() {
        0 | 3 | 5 | 6 | 10 | 11 => {}
        2 if !positional => {}
        _ => return result::UNSUPPORTED_FRAME,
    }
    let fault = params_fault(item, params, count, home);
    if fault != result::ACCEPTED {
        return fault;
    }
    if positional {
        return place_fault(item);
    }
    if item.command() == DO_JUMP && jumps >= MOST_JUMPS {
        return result::NO_SPACE;
    }
    result::ACCEPTED
}

fn params_fault(item: &Item, params: Params, count: u16, home: bool) -> u8 {
    let (first, second) = (item.param1(), item.param2());
    let (first_fits, second_fits) = match params {
        Params::Free => (true, true),
        Params::Amount => ((0.0..f32::INFINITY).contains(&first), true),
        Params::Heading => ((0.0..=360.0).contains(&first), true),
        Params::Jump => {
            let target = whole_within(first, i32::from(home), i32::from(count) - 1);
            let own = first == f32::from(item.seq());
            (target && !own, second.is_nan() || whole_within(second, -1, 32_767))
        }
        Params::Speed => (true, second.is_finite()),
        Params::Servo => (whole_within(first, 1, 16), whole_within(second, 500, 2500)),
        Params::Vertices => (whole_within(first, 3, 64), true),
        Params::Radius => (first > 0.0 && first < f32::INFINITY, true),
    };
    if !first_fits {
        result::INVALID_PARAM1
    } else if !second_fits {
        result::INVALID_PARAM2
    } else {
        result::ACCEPTED
    }
}

fn place_fault(item: &Item) -> u8 {
    let (x, y) = (item.word(16) as i32, item.word(20) as i32);
    if !(-900_000_000..=900_000_000).contains(&x) {
        result::INVALID_X
    } else if !(-1_800_000_000..=1_800_000_000).contains(&y) {
        result::INVALID_Y
    } else if !item.float(24).is_finite() {
        result::INVALID_Z
    } else {
        result::ACCEPTED
    }
}

/// Whether a number is whole and within bounds that are far from those of 32 bits.
fn whole_within(value: f32, least: i32, most: i32) -> bool {
    let whole = value as i32;
    whole as f32 == value && least <= whole && whole <= most
}
