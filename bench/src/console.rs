//! The console in plain Rust: call scripts in, lines out. Of the records it knows FRESH, MESSAGE, TIMER and END.

use std::io::{self, Read, Write};

use crate::service::{Message, Served, Service, Station};

pub const HEADER: usize = 24;
const MOST_PAYLOAD: usize = 300;
/// Words of the store array.
pub const MOST_STORE: u32 = 5_664;
const REPLY_ARRAY: usize = 64;
const FILL: [u8; REPLY_ARRAY] = [0xA5; REPLY_ARRAY];

/// The types of records.
pub mod record {
    pub const END: u8 = 0;
    pub const MESSAGE: u8 = 1;
    pub const TIMER: u8 = 2;
    pub const FRESH: u8 = 5;
}

/// The bit of a FRESH's b4 that is the setting "home in item 0".
pub const HOME: u8 = 1;

/// Bytes of the buffers, and the most that a line takes.
const BUFFER: usize = 1 << 16;
const LINE: usize = 160;

/// Input in a buffer.
struct Input<'a, R> {
    from: &'a mut R,
    buffer: Vec<u8>,
    at: usize,
    end: usize,
}

impl<R: Read> Input<'_, R> {
    /// The unread bytes: so many at least, or all that are left.
    fn unread(&mut self, wanted: usize) -> io::Result<&[u8]> {
        if self.end - self.at < wanted {
            self.buffer.copy_within(self.at..self.end, 0);
            self.end -= self.at;
            self.at = 0;
            while self.end < wanted {
                match self.from.read(&mut self.buffer[self.end..]) {
                    Ok(0) => break,
                    Ok(more) => self.end += more,
                    Err(error) if error.kind() == io::ErrorKind::Interrupted => {}
                    Err(error) => return Err(error),
                }
            }
        }
        Ok(&self.buffer[self.at..self.end])
    }
}

fn number(header: &[u8; HEADER], at: usize) -> u32 {
    u32::from_le_bytes([header[at], header[at + 1], header[at + 2], header[at + 3]])
}

/// Whether a record can be played.
fn fits(header: &[u8; HEADER], len: usize) -> bool {
    let known = match header[0] {
        record::MESSAGE | record::TIMER => true,
        record::FRESH => header[5] & !HOME == 0,
        _ => false,
    };
    known
        && len <= MOST_PAYLOAD
        && number(header, 16) <= MOST_STORE
        && number(header, 20) as usize <= REPLY_ARRAY
}

/// Plays a whole script, and prints its lines.
pub fn play(from: &mut impl Read, to: &mut impl Write) -> io::Result<()> {
    let mut input = Input { from, buffer: vec![0; BUFFER], at: 0, end: 0 };
    let mut out = Vec::with_capacity(BUFFER);
    let mut service = Service::fresh(false);
    loop {
        let bytes = input.unread(HEADER + MOST_PAYLOAD)?;
        if bytes.is_empty() {
            break;
        }
        let Some((header, rest)) = bytes.split_first_chunk() else {
            out.extend(b"? cut\n");
            break;
        };
        if header[0] == record::END {
            break;
        }
        let len = usize::from(u16::from_le_bytes([header[6], header[7]]));
        if !fits(header, len) {
            out.extend(format!("? {}\n", header[0]).as_bytes());
            break;
        }
        let Some(payload) = rest.get(..len) else {
            out.extend(b"? cut\n");
            break;
        };
        step(&mut service, header, payload, &mut out);
        input.at += HEADER + len;
        if out.len() > BUFFER - LINE {
            to.write_all(&out)?;
            out.clear();
        }
    }
    to.write_all(&out)?;
    to.flush()
}

/// Plays one record.
fn step(service: &mut Service, header: &[u8; HEADER], payload: &[u8], out: &mut Vec<u8>) {
    let mut array = FILL;
    let (clock, store) = (number(header, 12), number(header, 16) as usize);
    let reply = &mut array[..number(header, 20) as usize];
    match header[0] {
        record::MESSAGE => {
            let call = Message {
                own: Station { system: header[1], component: header[2] },
                sender: Station { system: header[3], component: header[4] },
                id: number(header, 8),
                payload,
                clock,
            };
            let served = service.message(&call, store, reply);
            put_line(out, b'm', served, &array);
        }
        record::TIMER => {
            let served = service.timer(header[5], clock, store, reply);
            put_line(out, b't', served, &array);
        }
        _ => *service = Service::fresh(header[5] & HOME != 0),
    }
}

/// A line in the making, of which so many bytes are there.
struct Line {
    bytes: [u8; LINE],
    len: usize,
}

impl Line {
    fn put(&mut self, bytes: &[u8]) {
        self.bytes[self.len..self.len + bytes.len()].copy_from_slice(bytes);
        self.len += bytes.len();
    }

    /// A space, and a number in decimal digits.
    fn put_number(&mut self, number: u32) {
        let mut digits = [b' '; 11];
        let mut at = digits.len();
        let mut left = number;
        loop {
            at -= 1;
            digits[at] = b'0' + (left % 10) as u8;
            left /= 10;
            if left == 0 {
                break;
            }
        }
        self.put(&digits[at - 1..]);
    }

    fn put_hex(&mut self, bytes: &[u8]) {
        for (byte, pair) in bytes.iter().zip(self.bytes[self.len..].chunks_exact_mut(2)) {
            pair.copy_from_slice(&HEX[usize::from(*byte)]);
        }
        self.len += 2 * bytes.len();
    }
}

/// The two digits of each byte.
const HEX: [[u8; 2]; 256] = {
    let digits = b"0123456789ABCDEF";
    let mut all = [[0; 2]; 256];
    let mut byte = 0;
    while byte < 256 {
        all[byte] = [digits[byte / 16], digits[byte % 16]];
        byte += 1;
    }
    all
};

fn put_line(out: &mut Vec<u8>, letter: u8, served: Served, reply: &[u8; REPLY_ARRAY]) {
    let mut line = Line { bytes: [0; LINE], len: 0 };
    line.put(&[letter]);
    line.put_number(u32::from(served.outcome));
    line.put_number(served.id);
    line.put_number(served.len as u32);
    line.put(if served.len == 0 { b" -" } else { b" " });
    line.put_hex(&reply[..served.len]);
    if reply[served.len..] != FILL[served.len..] {
        line.put(b" B");
    }
    line.put(b"\n");
    out.extend_from_slice(&line.bytes[..line.len]);
}
