//! MAVLink message layouts: payloads are read zero filled and written trimmed.

use crate::limits::{ITEM_BYTES, REPLY_BYTES};

pub const WRITE_PARTIAL_LIST: u32 = 38;
pub const SET_CURRENT: u32 = 41;
pub const CURRENT: u32 = 42;
pub const REQUEST_LIST: u32 = 43;
pub const COUNT: u32 = 44;
pub const CLEAR_ALL: u32 = 45;
pub const ACK: u32 = 47;
pub const REQUEST_INT: u32 = 51;
pub const ITEM_INT: u32 = 73;
pub const STATUSTEXT: u32 = 253;

/// Ids that the service reads.
pub const READ_IDS: [u32; 8] =
    [WRITE_PARTIAL_LIST, SET_CURRENT, REQUEST_LIST, COUNT, CLEAR_ALL, ACK, REQUEST_INT, ITEM_INT];

/// Each message's id and full length.
const FULL_LENGTHS: [(u32, usize); 10] = [
    (WRITE_PARTIAL_LIST, 7),
    (SET_CURRENT, 4),
    (CURRENT, 18),
    (REQUEST_LIST, 3),
    (COUNT, 9),
    (CLEAR_ALL, 3),
    (ACK, 8),
    (REQUEST_INT, 5),
    (ITEM_INT, ITEM_BYTES),
    (STATUSTEXT, REPLY_BYTES),
];

/// Length of STATUSTEXT's text.
pub const TEXT_BYTES: usize = 50;

pub fn full_length(id: u32) -> Option<usize> {
    FULL_LENGTHS.iter().find(|(known, _)| *known == id).map(|(_, full)| *full)
}

/// A system and component: a station, a target or the drone itself.
#[derive(Clone, Copy, Debug, Default, PartialEq, Eq)]
pub struct Address {
    pub system: u8,
    pub component: u8,
}

pub const fn address(system: u8, component: u8) -> Address {
    Address { system, component }
}

/// A mission item. Params and z are bit patterns of 32-bit floats.
#[derive(Clone, Copy, Debug, Default, PartialEq, Eq)]
pub struct Item {
    pub params: [u32; 4],
    pub x: i32,
    pub y: i32,
    pub z: u32,
    pub seq: u16,
    pub command: u16,
    pub to: Address,
    pub frame: u8,
    pub current: u8,
    pub autocontinue: u8,
    pub kind: u8,
}

impl Item {
    pub fn from_bytes(bytes: &[u8; ITEM_BYTES]) -> Item {
        Item {
            params: [0, 4, 8, 12].map(|at| get_u32(bytes, at)),
            x: get_u32(bytes, 16) as i32,
            y: get_u32(bytes, 20) as i32,
            z: get_u32(bytes, 24),
            seq: get_u16(bytes, 28),
            command: get_u16(bytes, 30),
            to: get_address(bytes, 32),
            frame: bytes[34],
            current: bytes[35],
            autocontinue: bytes[36],
            kind: bytes[37],
        }
    }

    pub fn to_bytes(&self) -> [u8; ITEM_BYTES] {
        let mut bytes = [0; ITEM_BYTES];
        for (i, param) in self.params.iter().enumerate() {
            put_u32(&mut bytes, 4 * i, *param);
        }
        put_u32(&mut bytes, 16, self.x as u32);
        put_u32(&mut bytes, 20, self.y as u32);
        put_u32(&mut bytes, 24, self.z);
        put_u16(&mut bytes, 28, self.seq);
        put_u16(&mut bytes, 30, self.command);
        put_address(&mut bytes, 32, self.to);
        bytes[34] = self.frame;
        bytes[35] = self.current;
        bytes[36] = self.autocontinue;
        bytes[37] = self.kind;
        bytes
    }
}

/// A message with its fields; `to` is the target system and component.
#[derive(Clone, Copy, Debug, PartialEq, Eq)]
pub enum Message {
    /// Items `start` to `end` of a plan are to be changed (request M-108).
    WritePartialList {
        start: i16,
        end: i16,
        to: Address,
        kind: u8,
    },
    SetCurrent {
        seq: u16,
        to: Address,
    },
    Current {
        seq: u16,
        total: u16,
        state: u8,
        mode: u8,
        numbers: [u32; 3],
    },
    RequestList {
        to: Address,
        kind: u8,
    },
    Count {
        count: u16,
        to: Address,
        kind: u8,
        number: u32,
    },
    ClearAll {
        to: Address,
        kind: u8,
    },
    Ack {
        to: Address,
        result: u8,
        kind: u8,
        number: u32,
    },
    RequestInt {
        seq: u16,
        to: Address,
        kind: u8,
    },
    ItemInt(Item),
    StatusText {
        severity: u8,
        text: [u8; TEXT_BYTES],
        id: u16,
        chunk: u8,
    },
}

impl Message {
    /// Reads a payload of any length; none for an id without a layout.
    pub fn read(id: u32, payload: &[u8]) -> Option<Message> {
        let b = zero_filled(payload, full_length(id)?);
        match id {
            CURRENT => Some(Message::Current {
                seq: get_u16(&b, 0),
                total: get_u16(&b, 2),
                state: b[4],
                mode: b[5],
                numbers: [6, 10, 14].map(|at| get_u32(&b, at)),
            }),
            STATUSTEXT => Some(Message::StatusText {
                severity: b[0],
                text: array(&b, 1),
                id: get_u16(&b, 51),
                chunk: b[53],
            }),
            _ => Message::read_with_target(id, &b),
        }
    }

    fn read_with_target(id: u32, b: &[u8; REPLY_BYTES]) -> Option<Message> {
        Some(match id {
            WRITE_PARTIAL_LIST => Message::WritePartialList {
                start: get_i16(b, 0),
                end: get_i16(b, 2),
                to: get_address(b, 4),
                kind: b[6],
            },
            SET_CURRENT => Message::SetCurrent { seq: get_u16(b, 0), to: get_address(b, 2) },
            REQUEST_LIST => Message::RequestList { to: get_address(b, 0), kind: b[2] },
            COUNT => Message::Count {
                count: get_u16(b, 0),
                to: get_address(b, 2),
                kind: b[4],
                number: get_u32(b, 5),
            },
            CLEAR_ALL => Message::ClearAll { to: get_address(b, 0), kind: b[2] },
            ACK => Message::Ack {
                to: get_address(b, 0),
                result: b[2],
                kind: b[3],
                number: get_u32(b, 4),
            },
            REQUEST_INT => {
                Message::RequestInt { seq: get_u16(b, 0), to: get_address(b, 2), kind: b[4] }
            }
            ITEM_INT => Message::ItemInt(Item::from_bytes(&array(b, 0))),
            _ => return None,
        })
    }

    pub fn id(&self) -> u32 {
        match self {
            Message::WritePartialList { .. } => WRITE_PARTIAL_LIST,
            Message::SetCurrent { .. } => SET_CURRENT,
            Message::Current { .. } => CURRENT,
            Message::RequestList { .. } => REQUEST_LIST,
            Message::Count { .. } => COUNT,
            Message::ClearAll { .. } => CLEAR_ALL,
            Message::Ack { .. } => ACK,
            Message::RequestInt { .. } => REQUEST_INT,
            Message::ItemInt(_) => ITEM_INT,
            Message::StatusText { .. } => STATUSTEXT,
        }
    }

    /// Target system and component; 0/0 for the messages without a target.
    pub fn to(&self) -> Address {
        match self {
            Message::WritePartialList { to, .. }
            | Message::SetCurrent { to, .. }
            | Message::RequestList { to, .. }
            | Message::Count { to, .. }
            | Message::ClearAll { to, .. }
            | Message::Ack { to, .. }
            | Message::RequestInt { to, .. } => *to,
            Message::ItemInt(item) => item.to,
            Message::Current { .. } | Message::StatusText { .. } => address(0, 0),
        }
    }

    /// The payload in full length.
    pub fn write(&self) -> Payload {
        let mut b = [0; REPLY_BYTES];
        match self {
            Message::Current { seq, total, state, mode, numbers } => {
                put_u16(&mut b, 0, *seq);
                put_u16(&mut b, 2, *total);
                b[4] = *state;
                b[5] = *mode;
                for (i, number) in numbers.iter().enumerate() {
                    put_u32(&mut b, 6 + 4 * i, *number);
                }
            }
            Message::StatusText { severity, text, id, chunk } => {
                b[0] = *severity;
                b[1..1 + TEXT_BYTES].copy_from_slice(text);
                put_u16(&mut b, 51, *id);
                b[53] = *chunk;
            }
            _ => self.write_with_target(&mut b),
        }
        let full = full_length(self.id()).unwrap_or(REPLY_BYTES);
        Payload { bytes: b, full }
    }

    fn write_with_target(&self, b: &mut [u8; REPLY_BYTES]) {
        match self {
            Message::WritePartialList { start, end, to, kind } => {
                put_u16(b, 0, *start as u16);
                put_u16(b, 2, *end as u16);
                put_address(b, 4, *to);
                b[6] = *kind;
            }
            Message::SetCurrent { seq, to } => {
                put_u16(b, 0, *seq);
                put_address(b, 2, *to);
            }
            Message::RequestList { to, kind } | Message::ClearAll { to, kind } => {
                put_address(b, 0, *to);
                b[2] = *kind;
            }
            Message::Count { count, to, kind, number } => {
                put_u16(b, 0, *count);
                put_address(b, 2, *to);
                b[4] = *kind;
                put_u32(b, 5, *number);
            }
            Message::Ack { to, result, kind, number } => {
                put_address(b, 0, *to);
                b[2] = *result;
                b[3] = *kind;
                put_u32(b, 4, *number);
            }
            Message::RequestInt { seq, to, kind } => {
                put_u16(b, 0, *seq);
                put_address(b, 2, *to);
                b[4] = *kind;
            }
            Message::ItemInt(item) => b[..ITEM_BYTES].copy_from_slice(&item.to_bytes()),
            Message::Current { .. } | Message::StatusText { .. } => {}
        }
    }
}

/// A written payload: the bytes and the message's full length.
#[derive(Clone, Copy, Debug)]
pub struct Payload {
    bytes: [u8; REPLY_BYTES],
    full: usize,
}

impl Payload {
    pub fn full(&self) -> &[u8] {
        &self.bytes[..self.full]
    }

    /// Without trailing zero bytes, but with at least one byte.
    pub fn trimmed(&self) -> &[u8] {
        let mut len = self.full;
        while len > 1 && self.bytes[len - 1] == 0 {
            len -= 1;
        }
        &self.bytes[..len]
    }
}

/// The first `full` bytes of a payload; missing ones are zero.
fn zero_filled(payload: &[u8], full: usize) -> [u8; REPLY_BYTES] {
    let mut bytes = [0; REPLY_BYTES];
    let sent = payload.len().min(full);
    bytes[..sent].copy_from_slice(&payload[..sent]);
    bytes
}

fn array<const N: usize>(bytes: &[u8], at: usize) -> [u8; N] {
    let mut out = [0; N];
    out.copy_from_slice(&bytes[at..at + N]);
    out
}

fn get_u16(bytes: &[u8], at: usize) -> u16 {
    u16::from_le_bytes(array(bytes, at))
}

fn get_i16(bytes: &[u8], at: usize) -> i16 {
    i16::from_le_bytes(array(bytes, at))
}

fn get_u32(bytes: &[u8], at: usize) -> u32 {
    u32::from_le_bytes(array(bytes, at))
}

fn get_address(bytes: &[u8], at: usize) -> Address {
    address(bytes[at], bytes[at + 1])
}

fn put_u16(bytes: &mut [u8], at: usize, value: u16) {
    bytes[at..at + 2].copy_from_slice(&value.to_le_bytes());
}

fn put_u32(bytes: &mut [u8], at: usize, value: u32) {
    bytes[at..at + 4].copy_from_slice(&value.to_le_bytes());
}

fn put_address(bytes: &mut [u8], at: usize, to: Address) {
    bytes[at] = to.system;
    bytes[at + 1] = to.component;
}

#[cfg(test)]
mod tests {
    use super::*;

    fn hex(text: &str) -> Vec<u8> {
        (0..text.len())
            .step_by(2)
            .map(|i| u8::from_str_radix(&text[i..i + 2], 16).unwrap())
            .collect()
    }

    /// Reads the payload, compares the message, and writes it back.
    fn both_ways(id: u32, payload: &str, message: Message) {
        let bytes = hex(payload);
        assert_eq!(Message::read(id, &bytes), Some(message));
        assert_eq!(message.id(), id);
        assert_eq!(message.write().full(), bytes);
    }

    #[test]
    fn mavlink_test_values() {
        both_ways(
            38,
            "5343bb43115497",
            Message::WritePartialList { start: 17235, end: 17339, to: address(17, 84), kind: 151 },
        );
        both_ways(41, "53438bce", Message::SetCurrent { seq: 17235, to: address(139, 206) });
        both_ways(
            42,
            "5343bb43115430cf6d3900d06d39d0d06d39",
            Message::Current {
                seq: 17235,
                total: 17339,
                state: 17,
                mode: 84,
                numbers: [963497776, 963497984, 963498192],
            },
        );
        both_ways(43, "05488b", Message::RequestList { to: address(5, 72), kind: 139 });
        both_ways(45, "05488b", Message::ClearAll { to: address(5, 72), kind: 139 });
        both_ways(
            44,
            "53438bce11fcce6d39",
            Message::Count { count: 17235, to: address(139, 206), kind: 17, number: 963497724 },
        );
        both_ways(
            47,
            "05488bcec8ce6d39",
            Message::Ack { to: address(5, 72), result: 139, kind: 206, number: 963497672 },
        );
        both_ways(
            51,
            "53438bce11",
            Message::RequestInt { seq: 17235, to: address(139, 206), kind: 17 },
        );
        both_ways(
            73,
            "0000884100003442000092420000ca4238d16d3908d26d390000394303496b4965a8eb2e71b4",
            Message::ItemInt(Item {
                params: [17.0f32, 45.0, 73.0, 101.0].map(f32::to_bits),
                x: 963498296,
                y: 963498504,
                z: 185.0f32.to_bits(),
                seq: 18691,
                command: 18795,
                to: address(101, 168),
                frame: 235,
                current: 46,
                autocontinue: 113,
                kind: 180,
            }),
        );
    }

    #[test]
    fn statustext_test_values() {
        let text: [u8; TEXT_BYTES] = std::array::from_fn(|i| b'A' + i as u8);
        let mut bytes = vec![5];
        bytes.extend(text);
        bytes.extend([0xAF, 0x4D, 0xE4]);
        let message = Message::StatusText { severity: 5, text, id: 19887, chunk: 228 };
        assert_eq!(Message::read(253, &bytes), Some(message));
        assert_eq!(message.write().full(), bytes);
    }

    #[test]
    fn short_and_long_payloads() {
        let broadcast = Message::RequestList { to: address(0, 0), kind: 0 };
        assert_eq!(Message::read(43, &[0]), Some(broadcast));
        let count = Message::Count { count: 256, to: address(0, 0), kind: 0, number: 0 };
        assert_eq!(Message::read(44, &[0, 1]), Some(count));
        let list = Message::RequestList { to: address(1, 2), kind: 1 };
        assert_eq!(Message::read(43, &[1, 2, 1, 9, 9, 9]), Some(list));
        let signed =
            Message::WritePartialList { start: -1, end: -32768, to: address(1, 0), kind: 0 };
        assert_eq!(Message::read(38, &[0xFF, 0xFF, 0, 0x80, 1]), Some(signed));
        assert_eq!(Message::read(46, &[0]), None);
        assert_eq!(Message::read(300, &[0]), None);
    }

    #[test]
    fn written_payloads_are_trimmed() {
        let request = Message::RequestInt { seq: 3, to: address(1, 1), kind: 0 };
        assert_eq!(request.write().trimmed(), [3, 0, 1, 1]);
        let ack = |kind, number| Message::Ack { to: address(255, 190), result: 0, kind, number };
        assert_eq!(ack(1, 1).write().trimmed(), [0xFF, 0xBE, 0, 1, 1]);
        assert_eq!(ack(0, 0).write().trimmed(), [0xFF, 0xBE]);
        let zeros = Message::RequestInt { seq: 0, to: address(0, 0), kind: 0 };
        assert_eq!(zeros.write().trimmed(), [0]);
    }
}
