//! Items for generated uploads: valid ones, whole plans, and items at the edges
//! of every rule.

use crate::items::{DO_JUMP, LAND, NANS, RETURN_HOME, RETURN_POINT};
use crate::items::{VERTEX_EXCLUSION, VERTEX_INCLUSION, WAYPOINT};
use crate::layout::{address, Item};
use crate::limits::*;
use crate::random::Random;

const POSITIONAL_FRAMES: [u8; 6] = [0, 3, 5, 6, 10, 11];
const NAV_COMMANDS: [u16; 8] = [16, 17, 18, 19, RETURN_HOME, LAND, 22, 31];
const FLIGHT_COMMANDS: [u16; 14] =
    [16, 17, 18, 19, RETURN_HOME, LAND, 22, 31, 112, 114, 115, DO_JUMP, 178, 183];
/// Flight commands as often as their edges are many.
const JUDGED_COMMANDS: [u16; 13] =
    [16, RETURN_HOME, LAND, 112, 115, 115, DO_JUMP, DO_JUMP, DO_JUMP, DO_JUMP, 178, 183, 183];
const FENCE_COMMANDS: [u16; 5] = [5000, 5001, 5002, 5003, 5004];
const RALLY_COMMAND: u16 = 5100;
/// Commands beside the table's rows.
const UNLISTED_COMMANDS: [u16; 18] =
    [0, 15, 23, 30, 32, 111, 113, 116, 176, 179, 182, 184, 4999, 5005, 5099, 5101, 16 + 256, 65535];

/// Bit patterns of floats that stand at some edge: zeros, subnormals, whole and
/// not whole numbers, the table's limits on both sides, infinities and NaNs.
#[rustfmt::skip]
const EDGE_FLOATS: [u32; 68] = [
    0x0000_0000, 0x8000_0000, 0x0000_0001, 0x8000_0001, 0x007F_FFFF, 0x807F_FFFF, 0x0080_0000,
    0x8080_0000, 0x3F00_0000, 0xBF00_0000, 0x3F7F_FFFF, 0x3F80_0000, 0xBF80_0000, 0x3F80_0001,
    0xBF80_0001, 0x3FC0_0000, 0x4000_0000, 0xC000_0000, 0x403F_FFFF, 0x4040_0000, 0x4040_0001,
    0x4080_0000, 0x4180_0000, 0x4180_0001, 0x4188_0000, 0x41F8_0000, 0x4200_0000, 0x427F_FFFF,
    0x4280_0000, 0x4280_0001, 0x4282_0000, 0x437F_0000, 0x4380_0000, 0x43B3_FFFF, 0x43B4_0000,
    0x43B4_0001, 0x43F9_8000, 0x43F9_FFFF, 0x43FA_0000, 0x43FA_4000, 0x451C_3000, 0x451C_4000,
    0x451C_4001, 0x451C_5000, 0x46FF_FE00, 0x46FF_FF00, 0x4700_0000, 0x4780_0000, 0x4B00_0000,
    0x4B80_0000, 0x4F00_0000, 0x4F80_0000, 0x5F00_0000, 0x5F80_0000, 0xDF00_0000, 0x7F7F_FFFF,
    0xFF7F_FFFF, 0x7F80_0000, 0xFF80_0000, 0x7FC0_0000, 0xFFC0_0000, 0x7F80_0001, 0xFFFF_FFFF,
    0x7FFF_FFFF, 0xFF80_0001, 0x4EFF_FFFF, 0xCF00_0000, 0xCF00_0001,
];

const INFINITIES: [u32; 2] = [0x7F80_0000, 0xFF80_0000];

pub fn commands(kind: usize) -> &'static [u16] {
    match kind {
        FLIGHT => &FLIGHT_COMMANDS,
        FENCE => &FENCE_COMMANDS,
        _ => &[RALLY_COMMAND],
    }
}

fn bits(value: usize) -> u32 {
    (value as f32).to_bits()
}

/// A finite amount of at least 0.
fn amount(random: &mut Random) -> u32 {
    match random.below(4) {
        0 => random.pick(&[0, 1 << 31, 1, 0x7F7F_FFFF, 0x0080_0000]),
        1 => random.word() % 0x7F80_0000,
        _ => bits(random.below(100)),
    }
}

/// A param that no rule reads.
fn free_param(random: &mut Random) -> u32 {
    match random.below(6) {
        0 => random.word(),
        1 => random.pick(&EDGE_FLOATS),
        _ => 0,
    }
}

/// A coordinate within its limit, either way from 0.
fn coordinate(random: &mut Random, limit: i64) -> i32 {
    let value = match random.below(8) {
        0 => random.pick(&[limit, -limit]),
        1 => 0,
        _ => (random.draw() % (2 * limit as u64 + 1)) as i64 - limit,
    };
    value as i32
}

/// A place that is judged: within the limits, its height a number.
fn place(random: &mut Random) -> (i32, i32, u32) {
    let heights = [0, 0x4248_0000, 0xC120_0000, 0x8000_0000, 0x7F7F_FFFF, 1];
    (coordinate(random, MAX_X), coordinate(random, MAX_Y), random.pick(&heights))
}

/// A place of a command that is not positional: often past every limit.
fn free_place(random: &mut Random) -> (i32, i32, u32) {
    let (x, y, z) = place(random);
    (
        if random.chance(1, 4) { edge_coordinate(random, MAX_X as i32) } else { x },
        if random.chance(1, 4) { edge_coordinate(random, MAX_Y as i32) } else { y },
        if random.chance(1, 4) { random.pick(&EDGE_FLOATS) } else { z },
    )
}

/// Position, frame and the fields that are not judged.
fn body(random: &mut Random, kind: usize, number: u16, command: u16) -> Item {
    let navigates = NAV_COMMANDS.contains(&command) && command != RETURN_HOME;
    let positional = kind != FLIGHT || navigates;
    let frame = match random.chance(1, 2) && !positional {
        true => 2,
        false => random.pick(&POSITIONAL_FRAMES),
    };
    let (x, y, z) = if positional { place(random) } else { free_place(random) };
    Item {
        params: std::array::from_fn(|_| free_param(random)),
        x,
        y,
        z,
        seq: number,
        command,
        to: address(0, 0),
        frame,
        current: random.pick(&[0, 0, 1, 255]),
        autocontinue: random.pick(&[0, 1, 1, 200, 255]),
        kind: kind as u8,
    }
}

/// An item with valid params for its command. A vertex gets a param 1 of its
/// own, so a fence of such items may fail as a whole.
fn item_of(random: &mut Random, kind: usize, number: u16, count: u16, command: u16) -> Item {
    let mut item = body(random, kind, number, command);
    match command {
        16 | 18 | 19 | 112 | 114 => item.params[0] = amount(random),
        115 => item.params[0] = bits(random.below(361)),
        DO_JUMP => return jump(random, number, count),
        178 => item.params[1] = amount(random) | (random.word() & (1 << 31)),
        183 => {
            item.params[0] = bits(random.within(1, 16));
            item.params[1] = bits(random.within(500, 2500));
        }
        VERTEX_INCLUSION | VERTEX_EXCLUSION => item.params[0] = bits(random.within(3, 5)),
        5003 | 5004 => item.params[0] = (amount(random) & 0x7FFF_FFFF) | 1,
        _ => {}
    }
    item
}

/// A valid jump, if the plan has another item to jump to.
pub fn jump(random: &mut Random, number: u16, count: u16) -> Item {
    let near = i32::from(number) + random.pick(&[-3, -2, -1, 1, 2]);
    let target = if (0..i32::from(count)).contains(&near) {
        near as usize
    } else {
        let any = random.below(usize::from(count.max(2)) - 1);
        any + usize::from(any >= usize::from(number))
    };
    let repeat = match random.below(8) {
        0 => (-1.0f32).to_bits(),
        1 => random.pick(&[0, 1 << 31, bits(32767), bits(40)]),
        2 => random.pick(&NANS),
        _ => bits(random.below(4)),
    };
    jump_to(random, number, target, repeat)
}

pub fn jump_to(random: &mut Random, number: u16, target: usize, repeat: u32) -> Item {
    let mut item = body(random, FLIGHT, number, DO_JUMP);
    item.params[0] = bits(target);
    item.params[1] = repeat;
    item
}

/// A valid item of a kind that can stand anywhere in its plan.
pub fn valid_item(random: &mut Random, kind: usize, number: u16, count: u16) -> Item {
    let command = match kind {
        FLIGHT if count > 1 && random.chance(1, 6) => DO_JUMP,
        FLIGHT if random.chance(1, 2) => random.pick(&NAV_COMMANDS),
        FLIGHT => random.pick(&[112, 114, 115, 178, 183]),
        FENCE => random.pick(&[5003, 5004]),
        _ => RALLY_COMMAND,
    };
    item_of(random, kind, number, count, command)
}

/// A plan of valid items; `jumps` of a flight plan's items are jumps.
pub fn plan(random: &mut Random, kind: usize, count: u16, jumps: usize) -> Vec<Item> {
    let mut items: Vec<Item> = match kind {
        FENCE => fence(random, usize::from(count)),
        _ => (0..count).map(|number| without_jump(random, kind, number)).collect(),
    };
    if kind == FLIGHT && count > 1 {
        for number in places(random, count, jumps) {
            items[usize::from(number)] = jump(random, number, count);
        }
    }
    items
}

pub fn without_jump(random: &mut Random, kind: usize, number: u16) -> Item {
    valid_item(random, kind, number, 1)
}

/// Different places of a plan, at most as many as it has.
fn places(random: &mut Random, count: u16, wanted: usize) -> Vec<u16> {
    let mut all: Vec<u16> = (0..count).collect();
    for at in (1..all.len()).rev() {
        all.swap(at, random.below(at + 1));
    }
    all.truncate(wanted);
    all
}

/// A fence that fits: polygons, circles and at most one return point.
fn fence(random: &mut Random, count: usize) -> Vec<Item> {
    let mut items: Vec<Item> = Vec::new();
    let mut return_point = false;
    while items.len() < count {
        let room = count - items.len();
        if room >= 3 && random.chance(1, 2) {
            let most = if random.chance(1, 8) { room } else { room.min(5) };
            polygon(random, &mut items, most);
        } else if !return_point && random.chance(1, 6) {
            return_point = true;
            items.push(fence_item(random, items.len(), RETURN_POINT));
        } else {
            let command = random.pick(&[5003, 5004]);
            items.push(fence_item(random, items.len(), command));
        }
    }
    items
}

fn fence_item(random: &mut Random, number: usize, command: u16) -> Item {
    item_of(random, FENCE, number as u16, 1, command)
}

fn polygon(random: &mut Random, items: &mut Vec<Item>, most: usize) {
    let vertices = if random.chance(1, 4) { most } else { random.within(3, most) };
    let command = random.pick(&[VERTEX_INCLUSION, VERTEX_EXCLUSION]);
    for _ in 0..vertices {
        let mut vertex = fence_item(random, items.len(), command);
        vertex.params[0] = bits(vertices);
        items.push(vertex);
    }
}

/// Makes all the items the vertices of one polygon, or of one that is too small.
pub fn one_polygon(random: &mut Random, items: &mut [Item]) {
    let vertices = items.len().max(3);
    let command = random.pick(&[VERTEX_INCLUSION, VERTEX_EXCLUSION]);
    for item in items {
        *item = fence_item(random, usize::from(item.seq), command);
        item.params[0] = bits(vertices);
    }
}

/// Changes a fence so that it mostly fails as a whole, its items staying valid.
pub fn spoil_fence(random: &mut Random, items: &mut [Item]) {
    let at = random.below(items.len());
    let number = items[at].seq;
    match random.below(5) {
        0 => items[at].params[0] = bits(random.within(3, 6)),
        1 => items[at].command = random.pick(&[VERTEX_INCLUSION, VERTEX_EXCLUSION]),
        2 => items[at] = fence_item(random, usize::from(number), 5003),
        3 => circles_to_return_points(items),
        _ => {
            let last = items.len() - 1;
            items[last] = fence_item(random, last, VERTEX_INCLUSION);
        }
    }
}

/// Makes the first two circles return points.
fn circles_to_return_points(items: &mut [Item]) {
    let circles = items.iter_mut().filter(|item| item.command > VERTEX_EXCLUSION);
    circles.take(2).for_each(|item| item.command = RETURN_POINT);
}

/// A plan that follows about 64 jumps in its first search, with jumps that are
/// passed over in between. So many items that are no jumps stand before them.
pub fn jump_loop(random: &mut Random, before: usize) -> Vec<Item> {
    let forever = (-1.0f32).to_bits();
    let passed = random.below(4);
    let back = before + 1 + passed;
    let repeat = bits(random.within(29, 34));
    let mut items: Vec<Item> =
        (0..before).map(|number| without_jump(random, FLIGHT, number as u16)).collect();
    items.push(jump_to(random, before as u16, before + 1, forever));
    for number in before + 1..back {
        items.push(jump_to(random, number as u16, before, zero(number % 2 == 1)));
    }
    items.push(jump_to(random, back as u16, before, repeat));
    for number in back + 1..back + 1 + random.within(1, 3) {
        items.push(without_jump(random, FLIGHT, number as u16));
    }
    items
}

/// Zero, with and without a sign.
fn zero(negative: bool) -> u32 {
    u32::from(negative) << 31
}

/// Makes item 0 of a flight plan a waypoint, and no jump lead to it.
pub fn put_home(random: &mut Random, items: &mut [Item]) {
    let count = items.len() as u16;
    for (number, item) in (0..).zip(items) {
        let other = if number == 1 { 2 } else { 1 };
        if number == 0 {
            *item = item_of(random, FLIGHT, number, count, WAYPOINT);
        } else if item.command == DO_JUMP && [zero(false), zero(true)].contains(&item.params[0]) {
            match other < count {
                true => item.params[0] = bits(usize::from(other)),
                false => *item = without_jump(random, FLIGHT, number),
            }
        }
    }
}

/// An item for place 0 of a flight plan: of any command, its frame often one that does
/// not fit, or with another field at an edge.
pub fn at_0(random: &mut Random, count: u16) -> Item {
    let command = match random.below(4) {
        0 => WAYPOINT,
        1 => edge_command(random),
        _ => random.pick(&FLIGHT_COMMANDS),
    };
    let mut item = item_of(random, FLIGHT, 0, count, command);
    match random.below(4) {
        0 => item.frame = random.pick(&[1, 2, 4, 255]),
        1 => spoil(random, &mut item, count),
        _ => {}
    }
    item
}

/// A jump to 0, with and without a sign, or to a place beside; its repeat fits or not.
pub fn jump_home(random: &mut Random, number: u16, count: u16) -> Item {
    let mut item = jump(random, number, count);
    let last = usize::from(count.max(1) - 1);
    let targets = [zero(false), zero(true), zero(true), bits(1), bits(last), 1];
    item.params[0] = random.pick(&targets);
    if random.chance(1, 4) {
        item.params[1] = edge_param(random, &item, count, 1);
    }
    item
}

/// An item of a kind with some fields at an edge, valid or not.
pub fn edge_item(random: &mut Random, kind: usize, number: u16, count: u16) -> Item {
    let judged = random.pick(&JUDGED_COMMANDS);
    let command = match kind == FLIGHT && random.chance(2, 3) {
        true => judged,
        false => random.pick(commands(kind)),
    };
    let mut item = item_of(random, kind, number, count, command);
    for _ in 0..random.pick(&[1, 1, 1, 2, 3]) {
        spoil(random, &mut item, count);
    }
    item
}

/// Puts one field of the item at an edge of its rule.
pub fn spoil(random: &mut Random, item: &mut Item, count: u16) {
    let ruled: Vec<usize> =
        [0, 1].into_iter().filter(|param| !rule_edges(item.command, *param).is_empty()).collect();
    if !ruled.is_empty() && random.chance(1, 3) {
        let param = random.pick(&ruled);
        item.params[param] = edge_param(random, item, count, param);
        return;
    }
    match random.below(24) {
        0..=6 => item.params[0] = edge_param(random, item, count, 0),
        7..=11 => item.params[1] = edge_param(random, item, count, 1),
        12 => item.params[random.within(2, 3)] = random.pick(&EDGE_FLOATS),
        13 | 14 => item.x = edge_coordinate(random, MAX_X as i32),
        15 | 16 => item.y = edge_coordinate(random, MAX_Y as i32),
        17 => item.z = random.pick(&EDGE_FLOATS),
        18 => item.z = random.pick(&[0x7F80_0000, 0xFF80_0000, 0x7FC0_0000, 0x7F7F_FFFF]),
        19 => item.frame = random.pick(&[0, 1, 2, 3, 4, 5, 6, 7, 9, 10, 11, 12, 21, 255]),
        20 => item.frame = 2,
        21 => item.frame = random.byte(),
        _ => item.command = edge_command(random),
    }
}

/// An item whose last word's fields are at their edges, with a command of the kind or any.
pub fn last_word_fields(random: &mut Random, kind: usize) -> Item {
    let own = random.pick(commands(kind));
    Item {
        command: random.pick(&[own, own, own | 0x8000, own ^ 0x100, 0, u16::MAX]),
        frame: random.pick(&[0, 2, 3, 11, 128, 255]),
        autocontinue: random.pick(&[0, 1, 2, 128, 255]),
        ..Item::default()
    }
}

/// Mostly a value at the edges of the command's own rule.
fn edge_param(random: &mut Random, item: &Item, count: u16, param: usize) -> u32 {
    let own = rule_edges(item.command, param);
    if item.command == DO_JUMP && param == 0 && random.chance(1, 2) {
        let near = item.seq.wrapping_add(random.pick(&[0, 0, 1, u16::MAX]));
        return bits(usize::from(random.pick(&[near, count, count.saturating_sub(1)])));
    }
    match own {
        [] => random.pick(&EDGE_FLOATS),
        _ => match random.below(8) {
            0 => random.pick(&EDGE_FLOATS),
            1 => random.pick(&NANS),
            2 => random.pick(&INFINITIES),
            _ => random.pick(own).to_bits(),
        },
    }
}

/// Values at the edges of a command's rule on param 1 or 2.
fn rule_edges(command: u16, param: usize) -> &'static [f32] {
    const SMALLEST: f32 = f32::from_bits(1);
    const NEGATIVE_NAN: f32 = f32::from_bits(0xFFC0_0001);
    const ABOVE_360: f32 = f32::from_bits(0x43B4_0001);
    const BELOW_3: f32 = f32::from_bits(0x403F_FFFF);
    const ABOVE_64: f32 = f32::from_bits(0x4280_0001);
    match (command, param) {
        (16 | 18 | 19 | 112 | 114 | 5003 | 5004, 0) => &[
            0.0,
            -0.0,
            SMALLEST,
            -SMALLEST,
            1.0,
            -1.0,
            f32::MAX,
            f32::INFINITY,
            f32::NEG_INFINITY,
            f32::NAN,
            NEGATIVE_NAN,
        ],
        (115, 0) => &[
            0.0,
            -0.0,
            SMALLEST,
            -SMALLEST,
            359.5,
            360.0,
            ABOVE_360,
            361.0,
            f32::INFINITY,
            f32::NEG_INFINITY,
            f32::NAN,
            NEGATIVE_NAN,
        ],
        (DO_JUMP, 0) => &[0.0, -0.0, -1.0, 0.5, SMALLEST, 65536.0, f32::INFINITY, f32::NAN],
        (DO_JUMP, 1) => &[
            -1.0,
            -2.0,
            -0.5,
            -1.5,
            0.0,
            -0.0,
            0.5,
            32766.0,
            32767.0,
            32767.5,
            32768.0,
            65535.0,
            2147483648.0,
            -2147483648.0,
            f32::INFINITY,
            f32::NEG_INFINITY,
        ],
        (178, 1) => &[
            0.0,
            -0.0,
            -1.0,
            SMALLEST,
            f32::MAX,
            f32::MIN,
            f32::INFINITY,
            f32::NEG_INFINITY,
            f32::NAN,
            NEGATIVE_NAN,
        ],
        (183, 0) => &[0.0, -0.0, 0.5, 1.0, 1.5, -1.0, 16.0, 16.5, 17.0, f32::NAN],
        (183, 1) => &[499.0, 499.5, 500.0, 500.5, 2499.5, 2500.0, 2500.5, 2501.0, f32::NAN],
        (VERTEX_INCLUSION | VERTEX_EXCLUSION, 0) => &[
            0.0,
            -3.0,
            1.0,
            2.0,
            BELOW_3,
            3.0,
            3.5,
            63.0,
            64.0,
            ABOVE_64,
            65.0,
            f32::INFINITY,
            f32::NAN,
        ],
        _ => &[],
    }
}

fn edge_coordinate(random: &mut Random, limit: i32) -> i32 {
    let edges = [limit, limit + 1, limit - 1, -limit, -limit - 1, -limit + 1];
    match random.below(8) {
        0 => random.pick(&[i32::MIN, i32::MIN + 1, i32::MAX]),
        1 => random.word() as i32,
        _ => random.pick(&edges),
    }
}

fn edge_command(random: &mut Random) -> u16 {
    let kind = random.below(KINDS);
    match random.below(4) {
        0 => random.pick(commands(kind)),
        1 => random.word() as u16,
        _ => random.pick(&UNLISTED_COMMANDS),
    }
}
