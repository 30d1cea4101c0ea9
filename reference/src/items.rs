//! When an item is valid, and how its params are read.

use crate::fault::Fault;
use crate::layout::Item;
use crate::limits::*;

pub const WAYPOINT: u16 = 16;
pub const RETURN_HOME: u16 = 20;
pub const LAND: u16 = 21;
pub const DO_JUMP: u16 = 177;
pub const RETURN_POINT: u16 = 5000;
pub const VERTEX_INCLUSION: u16 = 5001;
pub const VERTEX_EXCLUSION: u16 = 5002;

/// Results of MAV_MISSION_RESULT that are used here.
pub mod result {
    pub const ACCEPTED: u8 = 0;
    pub const UNSUPPORTED_FRAME: u8 = 2;
    pub const UNSUPPORTED: u8 = 3;
    pub const NO_SPACE: u8 = 4;
    pub const INVALID: u8 = 5;
    pub const INVALID_PARAM1: u8 = 6;
    pub const INVALID_PARAM2: u8 = 7;
    pub const INVALID_X: u8 = 10;
    pub const INVALID_Y: u8 = 11;
    pub const INVALID_Z: u8 = 12;
    pub const INVALID_SEQUENCE: u8 = 13;
    pub const DENIED: u8 = 14;
    pub const CANCELLED: u8 = 15;
}

/// Where an item stands in its plan or upload.
#[derive(Clone, Copy, Debug)]
pub struct Standing {
    pub kind: usize,
    /// Its number.
    pub number: u16,
    /// Items of the whole plan.
    pub count: u16,
    /// Items with command 177 before it.
    pub jumps_before: usize,
    /// Whether item 0 of a flight plan is home (request M-109).
    pub home: bool,
}

impl Standing {
    /// Fence and rally have no home.
    fn is_home(&self, fault: Fault) -> bool {
        let of_kind = match self.kind {
            FENCE => fault.is(Fault::Home0OfFence),
            RALLY => fault.is(Fault::Home0OfRally),
            _ => true,
        };
        self.home && of_kind && self.number == 0
    }

    /// The least target of a jump. Request M-109: "a jump to 0 is refused with 6".
    fn least_target(&self, bits: u32, fault: Fault) -> i64 {
        let taken = match fault {
            Fault::Home0JumpTaken | Fault::Home0JumpLate => true,
            Fault::Home0JumpMinusZero => bits == 1 << 31,
            _ => false,
        };
        i64::from(self.home && !taken)
    }
}

/// What a command asks of an item's params.
#[derive(Clone, Copy, Debug, PartialEq, Eq)]
enum ParamRule {
    Free,
    /// Param 1 finite, at least 0.
    Amount,
    /// Param 1 from 0 to 360.
    Heading,
    /// Param 1 a target, param 2 a repeat.
    Jump,
    /// Param 2 finite.
    Speed,
    /// Param 1 whole, 1 to 16; param 2 whole, 500 to 2500.
    Servo,
    /// Param 1 whole, 3 to 64.
    Vertices,
    /// Param 1 finite, above 0.
    Radius,
}

/// The table of commands: kind, whether positional, and the params' rule.
fn command_rule(command: u16) -> Option<(usize, bool, ParamRule)> {
    Some(match command {
        WAYPOINT | 18 | 19 => (FLIGHT, true, ParamRule::Amount),
        17 | LAND | 22 | 31 => (FLIGHT, true, ParamRule::Free),
        // Request M-101: frames as the commands below, x, y and z unchecked.
        RETURN_HOME => (FLIGHT, false, ParamRule::Free),
        112 | 114 => (FLIGHT, false, ParamRule::Amount),
        115 => (FLIGHT, false, ParamRule::Heading),
        177 => (FLIGHT, false, ParamRule::Jump),
        178 => (FLIGHT, false, ParamRule::Speed),
        183 => (FLIGHT, false, ParamRule::Servo),
        5000 => (FENCE, true, ParamRule::Free),
        5001 | 5002 => (FENCE, true, ParamRule::Vertices),
        5003 | 5004 => (FENCE, true, ParamRule::Radius),
        5100 => (RALLY, true, ParamRule::Free),
        _ => return None,
    })
}

/// Checks command, frame, params, x, y, z and jump room, in this order.
pub fn judge(item: &Item, standing: &Standing, fault: Fault) -> Result<(), u8> {
    let (kind, positional, rule) = command_rule(item.command).ok_or(result::UNSUPPORTED)?;
    require(kind == standing.kind, result::UNSUPPORTED)?;
    let home = require(home_fits(item, positional, standing, fault), result::UNSUPPORTED);
    // A planted fault judges it later.
    if ![Fault::Home0AfterFrame, Fault::Home0AfterParams].contains(&fault) {
        home?;
    }
    let positional = positional_with(item.command, positional, fault);
    let going_home = item.command == RETURN_HOME;
    let frame_fits = positional_frame(item.frame)
        || (item.frame == 2 && (!positional || fault.is(Fault::FrameTwo)))
        || (going_home && fault.is(Fault::HomeAnyFrame));
    require(frame_fits, result::UNSUPPORTED_FRAME)?;
    if fault.is(Fault::Home0AfterFrame) {
        home?;
    }
    check_params(item, rule, standing, fault)?;
    home?;
    if positional || (going_home && fault.is(Fault::HomePlaceJudged)) {
        check_position(item, fault)?;
    }
    let room = MAX_JUMPS + usize::from(fault.is(Fault::SixteenJumps));
    let fits = item.command != DO_JUMP || standing.jumps_before < room;
    require(fits, result::NO_SPACE)
}

/// Request M-109: "item 0 of a flight plan must be command 16 (else 3)".
fn home_fits(item: &Item, positional: bool, standing: &Standing, fault: Fault) -> bool {
    let taken = match fault {
        Fault::Home0AnyCommand => true,
        Fault::Home0AnyPositional => positional,
        _ => false,
    };
    item.command == WAYPOINT || !standing.is_home(fault) || taken
}

/// Whether a command is positional, with a planted fault.
fn positional_with(command: u16, positional: bool, fault: Fault) -> bool {
    match (command, fault) {
        (RETURN_HOME, Fault::HomePositional) => true,
        (LAND, Fault::LandNotPositional) => false,
        _ => positional,
    }
}

fn require(holds: bool, otherwise: u8) -> Result<(), u8> {
    if holds {
        Ok(())
    } else {
        Err(otherwise)
    }
}

fn positional_frame(frame: u8) -> bool {
    matches!(frame, 0 | 3 | 5 | 6 | 10 | 11)
}

fn check_params(item: &Item, rule: ParamRule, standing: &Standing, fault: Fault) -> Result<(), u8> {
    let [first, second, _, _] = item.params;
    let (first_fits, second_fits) = match rule {
        ParamRule::Free => (true, true),
        ParamRule::Amount => (finite(first) && at_least_zero(first, fault), true),
        ParamRule::Heading => (heading(first, fault), true),
        ParamRule::Jump => (jump_target(first, standing, fault), repeat_fits(second, fault)),
        ParamRule::Speed => (true, finite(second)),
        ParamRule::Servo => (whole_within(first, 1, 16), pulse_fits(second, fault)),
        ParamRule::Vertices => (whole_within(first, 3, 64), true),
        ParamRule::Radius => (finite(first) && f32::from_bits(first) > 0.0, true),
    };
    require(first_fits, result::INVALID_PARAM1)?;
    require(second_fits, result::INVALID_PARAM2)?;
    let late = rule == ParamRule::Jump && fault.is(Fault::Home0JumpLate);
    require(!late || jump_target(first, standing, Fault::None), result::INVALID_PARAM1)
}

fn check_position(item: &Item, fault: Fault) -> Result<(), u8> {
    let max_x = MAX_X + i64::from(fault.is(Fault::XLimit));
    require(i64::from(item.x).abs() <= max_x, result::INVALID_X)?;
    require(i64::from(item.y).abs() <= MAX_Y, result::INVALID_Y)?;
    require(finite(item.z), result::INVALID_Z)
}

fn jump_target(bits: u32, standing: &Standing, fault: Fault) -> bool {
    if fault.is(Fault::NanTarget) && read(bits) == Reading::NoValue {
        return true;
    }
    let itself_fits = fault.is(Fault::JumpToItself);
    let least = standing.least_target(bits, fault);
    whole(bits).is_some_and(|target| {
        (least..i64::from(standing.count)).contains(&target)
            && (itself_fits || target != i64::from(standing.number))
    })
}

/// Whole, -1 to 32767, or no value (request M-105).
fn repeat_fits(bits: u32, fault: Fault) -> bool {
    let refused = match fault {
        Fault::NanRepeatRefused => true,
        Fault::SignallingRefused => bits & QUIET == 0,
        Fault::NegativeNanRefused => bits >> 31 == 1,
        _ => false,
    };
    match read(bits) {
        Reading::NoValue => !refused,
        Reading::Whole(repeat) => (-1..=32767).contains(&repeat),
        Reading::NotWhole => fault.is(Fault::InfiniteRepeat) && !finite(bits),
    }
}

fn pulse_fits(bits: u32, fault: Fault) -> bool {
    let taken = fault.is(Fault::NanPulse) && read(bits) == Reading::NoValue;
    taken || whole_within(bits, 500, 2500)
}

fn heading(bits: u32, fault: Fault) -> bool {
    let value = f32::from_bits(bits);
    if value.is_nan() {
        return fault.is(Fault::NanHeading);
    }
    at_least_zero(bits, fault) && value <= 360.0
}

/// Neither infinite nor NaN.
fn finite(bits: u32) -> bool {
    (bits >> 23) & 0xFF != 0xFF
}

/// Minus zero is 0.
fn at_least_zero(bits: u32, fault: Fault) -> bool {
    let refused_zero = fault.is(Fault::MinusZero) && bits == 1 << 31;
    f32::from_bits(bits) >= 0.0 && !refused_zero
}

fn whole_within(bits: u32, least: i64, most: i64) -> bool {
    whole(bits).is_some_and(|value| (least..=most).contains(&value))
}

/// What a param says as a whole number (request M-105).
#[derive(Clone, Copy, Debug, PartialEq, Eq)]
pub enum Reading {
    Whole(i32),
    /// A NaN, whatever its pattern.
    NoValue,
    /// A fraction, an infinity, or a number beyond 32 signed bits.
    NotWhole,
}

/// The first and last patterns of NaNs, quiet and signalling, of either sign.
pub const NANS: [u32; 8] = [
    0x7FC0_0000,
    0x7FFF_FFFF,
    0x7F80_0001,
    0x7FBF_FFFF,
    0xFFC0_0000,
    0xFFFF_FFFF,
    0xFF80_0001,
    0xFFBF_FFFF,
];

/// The bit that tells a quiet NaN from a signalling one.
const QUIET: u32 = 1 << 22;

/// Reads a 32-bit float exactly.
pub fn read(bits: u32) -> Reading {
    let fraction = i64::from(bits & 0x7F_FFFF);
    if !finite(bits) {
        return if fraction == 0 { Reading::NotWhole } else { Reading::NoValue };
    }
    if bits & 0x7FFF_FFFF == 0 {
        return Reading::Whole(0);
    }
    let exponent = ((bits >> 23) & 0xFF) as i32 - 127;
    if !(0..=31).contains(&exponent) {
        return Reading::NotWhole;
    }
    let significand = fraction | (1 << 23);
    let size = if exponent >= 23 {
        significand << (exponent - 23)
    } else {
        let below_one = (1 << (23 - exponent)) - 1;
        if significand & below_one != 0 {
            return Reading::NotWhole;
        }
        significand >> (23 - exponent)
    };
    let value = if bits >> 31 == 1 { -size } else { size };
    i32::try_from(value).map_or(Reading::NotWhole, Reading::Whole)
}

/// The whole number that a param is, if it is one.
pub fn whole(bits: u32) -> Option<i64> {
    match read(bits) {
        Reading::Whole(value) => Some(i64::from(value)),
        Reading::NoValue | Reading::NotWhole => None,
    }
}

#[cfg(test)]
mod tests {
    use super::*;

    fn item(command: u16) -> Item {
        Item { command, frame: 3, ..Item::default() }
    }

    fn standing(kind: usize) -> Standing {
        Standing { kind, number: 1, count: 4, jumps_before: 0, home: false }
    }

    fn verdict(item: &Item, kind: usize) -> u8 {
        judge(item, &standing(kind), Fault::None).err().unwrap_or(0)
    }

    fn with_params(command: u16, first: f32, second: f32) -> Item {
        Item { params: [first.to_bits(), second.to_bits(), 0, 0], ..item(command) }
    }

    #[test]
    fn readings_are_exact() {
        assert_eq!(read(0), Reading::Whole(0));
        assert_eq!(read(0x8000_0000), Reading::Whole(0));
        for value in [1i32, -1, 3, 64, 500, 2500, 32767, -32768, 8388607, 1 << 30, i32::MIN] {
            assert_eq!(read((value as f32).to_bits()), Reading::Whole(value));
        }
        assert_eq!(read(0x4EFF_FFFF), Reading::Whole(2147483520));
        for value in [0.5f32, 1.5, -0.25, 8388607.5, 2.9999998, f32::INFINITY, f32::NEG_INFINITY] {
            assert_eq!(read(value.to_bits()), Reading::NotWhole);
        }
        for bits in [1, 0x0080_0000, 0x4F00_0000, 0xCF00_0001, 0x7F7F_FFFF, 0xFF7F_FFFF] {
            assert_eq!(read(bits), Reading::NotWhole);
        }
        for bits in NANS {
            assert_eq!(read(bits), Reading::NoValue);
        }
    }

    #[test]
    fn commands_and_kinds() {
        let flight = [16, 17, 18, 19, 20, 21, 22, 31, 112, 114, 115, 178];
        for command in 0..=u16::MAX {
            let listed = flight.contains(&command) || [177, 183].contains(&command);
            let known = verdict(&item(command), FLIGHT) != result::UNSUPPORTED;
            assert_eq!(listed, known, "{command}");
            let fence = verdict(&item(command), FENCE) != result::UNSUPPORTED;
            assert_eq!((5000..=5004).contains(&command), fence, "{command}");
            let rally = verdict(&item(command), RALLY) != result::UNSUPPORTED;
            assert_eq!(command == 5100, rally, "{command}");
        }
        for command in flight {
            assert_eq!(verdict(&item(command), FLIGHT), 0);
        }
    }

    #[test]
    fn frames() {
        for frame in 0..=255 {
            let positional = [0, 3, 5, 6, 10, 11].contains(&frame);
            let at = |command| Item { frame, ..item(command) };
            let expected = if positional { 0 } else { 2 };
            assert_eq!(verdict(&at(16), FLIGHT), expected);
            assert_eq!(verdict(&at(5100), RALLY), expected);
            for command in [17, 18, 19, 21, 22, 31] {
                assert_eq!(verdict(&at(command), FLIGHT), expected);
            }
            let expected = if positional || frame == 2 { 0 } else { 2 };
            assert_eq!(verdict(&at(112), FLIGHT), expected);
            assert_eq!(verdict(&at(20), FLIGHT), expected);
        }
    }

    #[test]
    fn amounts() {
        for command in [16, 18, 19, 112, 114] {
            let first = |value| verdict(&with_params(command, value, 0.0), FLIGHT);
            assert_eq!(first(-0.0), 0);
            assert_eq!(first(f32::MAX), 0);
            assert_eq!(first(f32::from_bits(1)), 0);
            for bad in [f32::from_bits(0x8000_0001), -1.0, f32::NAN, f32::INFINITY] {
                assert_eq!(first(bad), 6);
            }
        }
        let heading = |value| verdict(&with_params(115, value, 0.0), FLIGHT);
        assert_eq!(heading(360.0), 0);
        assert_eq!(heading(-0.0), 0);
        for bad in [f32::from_bits(0x43B4_0001), f32::NAN, f32::INFINITY, -1.0] {
            assert_eq!(heading(bad), 6);
        }
        let radius = |value| verdict(&with_params(5003, value, 0.0), FENCE);
        assert_eq!(radius(f32::from_bits(1)), 0);
        for bad in [0.0, -0.0, f32::NAN, f32::INFINITY, -1.0] {
            assert_eq!(radius(bad), 6);
        }
        let speed = |value| verdict(&with_params(178, f32::NAN, value), FLIGHT);
        assert_eq!(speed(-1.0), 0);
        assert_eq!(speed(f32::NAN), 7);
    }

    #[test]
    fn jumps() {
        let jump = |first, second| verdict(&with_params(177, first, second), FLIGHT);
        assert_eq!(jump(0.0, -1.0), 0);
        assert_eq!(jump(-0.0, -0.0), 0);
        assert_eq!(jump(3.0, 32767.0), 0);
        for bad in [1.0, 4.0, -1.0, 0.5, f32::NAN, f32::INFINITY] {
            assert_eq!(jump(bad, f32::NAN), 6);
        }
        for bad in [-2.0, 32768.0, 0.5, f32::INFINITY, 2147483648.0, -2147483648.0] {
            assert_eq!(jump(0.0, bad), 7);
        }
        for bits in NANS {
            assert_eq!(jump(0.0, f32::from_bits(bits)), 0);
            assert_eq!(jump(f32::from_bits(bits), 1.0), 6);
        }
        let sixteenth = Standing { jumps_before: 15, ..standing(FLIGHT) };
        let good = with_params(177, 0.0, 0.0);
        assert_eq!(judge(&good, &sixteenth, Fault::None), Err(4));
        let without = with_params(177, 0.0, f32::NAN);
        assert_eq!(judge(&without, &sixteenth, Fault::None), Err(4));
        let bad = with_params(177, 1.0, 0.0);
        assert_eq!(judge(&bad, &sixteenth, Fault::None), Err(6));
        assert_eq!(judge(&item(16), &sixteenth, Fault::None), Ok(()));
    }

    #[test]
    fn servos_and_vertices() {
        let servo = |first, second| verdict(&with_params(183, first, second), FLIGHT);
        assert_eq!(servo(1.0, 500.0), 0);
        assert_eq!(servo(16.0, 2500.0), 0);
        for bad in [0.0, 17.0, 1.5, f32::NAN] {
            assert_eq!(servo(bad, 0.0), 6);
        }
        for bad in [499.0, 2501.0, 1000.5, f32::NAN] {
            assert_eq!(servo(1.0, bad), 7);
        }
        for command in [5001, 5002] {
            let vertex = |value| verdict(&with_params(command, value, 0.0), FENCE);
            assert_eq!((vertex(3.0), vertex(64.0)), (0, 0));
            assert_eq!((vertex(2.0), vertex(65.0), vertex(3.5)), (6, 6, 6));
        }
    }

    #[test]
    fn positions() {
        let x = |x| verdict(&Item { x, ..item(16) }, FLIGHT);
        assert_eq!((x(900_000_000), x(-900_000_000)), (0, 0));
        assert_eq!((x(900_000_001), x(-900_000_001), x(i32::MIN)), (10, 10, 10));
        let y = |y| verdict(&Item { y, ..item(5100) }, RALLY);
        assert_eq!((y(1_800_000_000), y(-1_800_000_000)), (0, 0));
        assert_eq!((y(1_800_000_001), y(-1_800_000_001), y(i32::MIN)), (11, 11, 11));
        let z = |z: f32| verdict(&Item { z: z.to_bits(), ..item(21) }, FLIGHT);
        assert_eq!((z(f32::MAX), z(f32::NAN), z(f32::INFINITY)), (0, 12, 12));
        let anywhere = |command| Item { x: i32::MAX, y: i32::MIN, z: u32::MAX, ..item(command) };
        for command in [20, 112] {
            assert_eq!(verdict(&anywhere(command), FLIGHT), 0);
        }
        for command in [16, 17, 18, 19, 21, 22, 31] {
            assert_eq!(verdict(&anywhere(command), FLIGHT), 10);
        }
    }

    #[test]
    fn param_4_nan_is_valid() {
        let mut waypoint = item(16);
        waypoint.params[3] = f32::NAN.to_bits();
        assert_eq!(verdict(&waypoint, FLIGHT), 0);
    }

    #[test]
    fn order_of_checks() {
        let mut bad = Item { frame: 1, x: i32::MAX, y: i32::MAX, z: u32::MAX, ..item(30) };
        bad.params[0] = u32::MAX;
        let mut results = vec![verdict(&bad, FLIGHT)];
        bad.command = 16;
        results.push(verdict(&bad, FLIGHT));
        bad.frame = 0;
        results.push(verdict(&bad, FLIGHT));
        bad.params[0] = 0;
        results.push(verdict(&bad, FLIGHT));
        bad.x = 0;
        results.push(verdict(&bad, FLIGHT));
        bad.y = 0;
        results.push(verdict(&bad, FLIGHT));
        bad.z = 0;
        results.push(verdict(&bad, FLIGHT));
        assert_eq!(results, [3, 2, 6, 10, 11, 12, 0]);
    }
}
