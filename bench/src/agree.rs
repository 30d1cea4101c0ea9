//! Whether two implementations of trimming and of writing a STATUSTEXT give the same lengths and leave the same bytes.

use crate::plain::{CHARS, FULL};

/// An implementation.
pub struct Trimmer {
    pub length: fn(&[u8]) -> usize,
    pub trim: fn(&[u8], &mut [u8]) -> usize,
    pub write: fn(u8, &[u8], u16, u8, &mut [u8]) -> usize,
}

/// Bytes of a length: all zero, one other byte at each place, none zero, and every tail of zeros behind others.
fn patterns(length: usize) -> Vec<Vec<u8>> {
    let mut all = vec![vec![0; length]];
    for at in 0..length {
        for byte in [1, 0x80, 0xFF] {
            let mut one = vec![0; length];
            one[at] = byte;
            all.push(one);
        }
        let mut tail = vec![0x5A; length];
        tail[at..].fill(0);
        all.push(tail);
    }
    all.push(vec![b'x'; length]);
    all
}

/// The fields of a STATUSTEXT's bytes: severity, text, id, chunk. Taken apart in the caller, so that writing alone is timed.
#[inline(always)]
pub fn fields(bytes: &[u8]) -> (u8, &[u8], u16, u8) {
    (bytes[0], &bytes[1..51], u16::from_le_bytes([bytes[51], bytes[52]]), bytes[53])
}

/// How many inputs were compared, these STATUSTEXTs among them, or the first on which the two differ.
pub fn agree(a: &Trimmer, b: &Trimmer, texts: &[[u8; FULL]]) -> Result<usize, String> {
    let mut compared = 0;
    for length in 1..=130 {
        for bytes in patterns(length) {
            let (x, y) = ((a.length)(&bytes), (b.length)(&bytes));
            if x != y {
                return Err(format!("length of {bytes:?}: {x} and {y}"));
            }
            compared += 1;
        }
    }
    for bytes in texts {
        let (severity, text, id, chunk) = fields(bytes);
        let what = || format!("the message {bytes:?}");
        same(FULL, what, |_| (a.length)(bytes), |_| (b.length)(bytes))?;
        same(FULL, what, |out| (a.trim)(bytes, out), |out| (b.trim)(bytes, out))?;
        same(
            FULL,
            what,
            |out| (a.write)(severity, text, id, chunk, out),
            |out| (b.write)(severity, text, id, chunk, out),
        )?;
        compared += 3;
    }
    let near = |full: usize| [0, 1, full - 1, full, full + 1, full + 10];
    for room in near(FULL) {
        for length in near(FULL) {
            for bytes in patterns(length) {
                let what = || format!("trim {bytes:?}");
                same(room, what, |out| (a.trim)(&bytes, out), |out| (b.trim)(&bytes, out))?;
                compared += 1;
            }
        }
        for length in near(CHARS) {
            for text in patterns(length) {
                for (severity, id, chunk) in
                    [(0, 0, 0), (4, 0, 0), (7, 1, 0), (1, 256, 0), (2, 0, 9)]
                {
                    let what = || format!("write {severity} {text:?} {id} {chunk}");
                    same(
                        room,
                        what,
                        |out| (a.write)(severity, &text, id, chunk, out),
                        |out| (b.write)(severity, &text, id, chunk, out),
                    )?;
                    compared += 1;
                }
            }
        }
    }
    Ok(compared)
}

/// Whether both answer the same, and leave the same in a buffer that held other bytes.
fn same(
    room: usize,
    what: impl Fn() -> String,
    a: impl Fn(&mut [u8]) -> usize,
    b: impl Fn(&mut [u8]) -> usize,
) -> Result<(), String> {
    let (mut left, mut right) = (vec![0xA5; room], vec![0xA5; room]);
    let (x, y) = (a(&mut left), b(&mut right));
    if x == y && left == right {
        return Ok(());
    }
    Err(format!("{} into {room} bytes: {x}, {left:?} and {y}, {right:?}", what()))
}
