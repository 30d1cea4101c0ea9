//! Trimming and writing a STATUSTEXT in plain Rust, twice: by `rposition`, and by a loop. None is inlined, since the library's functions cannot be.

pub const FULL: usize = 54;
pub const CHARS: usize = 50;

/// The length of bytes without trailing zeros, at least one: there is one.
#[inline(always)]
fn by_rposition(bytes: &[u8]) -> usize {
    bytes.iter().rposition(|&byte| byte != 0).map_or(1, |last| last + 1)
}

#[inline(always)]
fn by_loop(bytes: &[u8]) -> usize {
    let mut n = bytes.len();
    while n > 1 && bytes[n - 1] == 0 {
        n -= 1;
    }
    n
}

/// Bytes that are a STATUSTEXT's, into a buffer that has room for all of them: those up to the length that is found.
#[inline(always)]
fn trim(bytes: &[u8], out: &mut [u8], length: impl Fn(&[u8]) -> usize) -> usize {
    if bytes.len() != FULL || out.len() < FULL {
        return 0;
    }
    let n = length(bytes);
    out[..n].copy_from_slice(&bytes[..n]);
    n
}

#[inline(always)]
fn write(
    severity: u8,
    text: &[u8],
    id: u16,
    chunk: u8,
    out: &mut [u8],
    length: impl Fn(&[u8]) -> usize,
) -> usize {
    if text.len() != CHARS {
        return 0;
    }
    let mut bytes = [0; FULL];
    bytes[0] = severity;
    bytes[1..51].copy_from_slice(text);
    bytes[51..53].copy_from_slice(&id.to_le_bytes());
    bytes[53] = chunk;
    trim(&bytes, out, length)
}

#[inline(never)]
pub fn length_by_rposition(bytes: &[u8]) -> usize {
    by_rposition(bytes)
}

#[inline(never)]
pub fn length_by_loop(bytes: &[u8]) -> usize {
    by_loop(bytes)
}

#[inline(never)]
pub fn trim_by_rposition(bytes: &[u8], out: &mut [u8]) -> usize {
    trim(bytes, out, by_rposition)
}

#[inline(never)]
pub fn trim_by_loop(bytes: &[u8], out: &mut [u8]) -> usize {
    trim(bytes, out, by_loop)
}

#[inline(never)]
pub fn write_by_rposition(severity: u8, text: &[u8], id: u16, chunk: u8, out: &mut [u8]) -> usize {
    write(severity, text, id, chunk, out, by_rposition)
}

#[inline(never)]
pub fn write_by_loop(severity: u8, text: &[u8], id: u16, chunk: u8, out: &mut [u8]) -> usize {
    write(severity, text, id, chunk, out, by_loop)
}
